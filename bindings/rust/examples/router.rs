//! A router by a transaction that decides as it goes: it reads an order and sends it to the audit or to billing by what
//! the order says. If the audit is full, the order stays where it was.

use std::error::Error;
use std::thread;
use yalwythen::kinds::{Bounded, Closable, Queue};
use yalwythen::{Domain, Failure, Receiver, Sender};

struct Order {
    id: u64,
    total: u64,
}

struct Routes {
    orders: Receiver<Order, Closable>,
    audit: Sender<Order, Bounded>,
    bill: Sender<Order, Queue>,
}

/// Routes one order. Returns whether there was one.
fn route(domain: &Domain, routes: &Routes) -> Result<bool, Failure> {
    domain.atomically(|tx| {
        let Some(order) = tx.read(&routes.orders)? else { return Ok(false) };
        if order.total > 1000 {
            tx.write(&routes.audit, order)?;
        } else {
            tx.write(&routes.bill, order)?;
        }
        Ok(true)
    })
}

fn main() -> Result<(), Box<dyn Error>> {
    let domain = Domain::new();
    let ((submit, orders), (audit, audits), (bill, bills)) = (domain.closable(), domain.bounded(2)?, domain.queue());
    let routes = Routes { orders, audit, bill };
    let router = {
        let domain = domain.clone();
        thread::spawn(move || {
            let mut count = 0;
            while route(&domain, &routes)? {
                count += 1;
            }
            Ok::<u64, Failure>(count)
        })
    };
    for id in 0..100 {
        submit.send(Order { id, total: id * 50 })?;
    }
    drop(submit);
    let audited: u64 = audits.iter().take(79).map(|order| order.total).sum();
    let count = router.join().expect("no panic")?;
    let last = bills.try_iter().last().ok_or("no bill")?;
    println!("{count} orders, {audited} audited, the last bill is of order {}", last.id);
    Ok(())
}
