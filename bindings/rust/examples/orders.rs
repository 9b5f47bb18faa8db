//! The program of the page: a clerk sends orders to the audit or to billing by what they say, until there are no more.

use std::thread;
use yalwythen::{Domain, select};

fn main() -> Result<(), Box<dyn std::error::Error>> {
    let domain = Domain::new();
    let ((order, orders), (audit, audits), (bill, bills)) = (domain.closable(), domain.bounded(16)?, domain.queue());
    order.send(1200)?;
    order.send(30)?;
    thread::scope(|scope| {
        let clerk = scope.spawn(|| {
            // Takes an order and sends it on by what it says: all of that, or nothing.
            let route = || {
                domain.atomically(|tx| {
                    let Some(total) = tx.read(&orders)? else { return Ok(false) };
                    if *total > 1000 {
                        tx.write(&audit, total)?
                    } else {
                        tx.write(&bill, total)?
                    }
                    Ok(true)
                })
            };
            while route()? {}
            Ok::<(), yalwythen::Failure>(())
        });
        drop(order); // the last sender: the channel is closed, and the clerk ends
        clerk.join().expect("no panic")
    })?;
    for _ in 0..2 {
        select! {
            recv(audits) -> total => println!("to audit: {}", total?),
            recv(bills) -> total => println!("to bill: {}", total?),
        }
    }
    Ok(())
}
