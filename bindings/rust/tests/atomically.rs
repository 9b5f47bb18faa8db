//! Transactions that decide as they go.

use std::panic::{AssertUnwindSafe, catch_unwind};
use std::sync::Arc;
use std::sync::atomic::{AtomicUsize, Ordering::SeqCst};
use std::thread;
use std::time::Duration;
use yalwythen::{AtomicallyTimeoutError, Domain, TryAtomicallyError};

#[derive(Debug, PartialEq, Eq)]
struct Order {
    id: u64,
    total: u64,
}

/// What a panic says.
fn panic_of<T>(action: impl FnOnce() -> T) -> String {
    let payload = catch_unwind(AssertUnwindSafe(action)).err().expect("it panics");
    payload.downcast_ref::<String>().cloned().or(payload.downcast_ref::<&str>().map(|text| (*text).into())).unwrap()
}

#[test]
fn a_router_sends_by_what_it_reads() {
    let domain = Domain::new();
    let (submit, orders) = domain.closable::<Order>();
    let ((audit, audits), (bill, bills)) = (domain.bounded::<Order>(1).unwrap(), domain.queue::<Order>());
    for (id, total) in [(1, 1200), (2, 10), (3, 5000)] {
        submit.send(Order { id, total }).unwrap();
    }
    let route = || {
        domain.try_atomically(|tx| {
            let Some(order) = tx.read(&orders)? else { return Ok("closed") };
            if order.total > 1000 {
                tx.write(&audit, order)?;
                return Ok("audit");
            }
            tx.write(&bill, order)?;
            Ok("bill")
        })
    };
    assert_eq!([route(), route()], [Ok("audit"), Ok("bill")]);
    // The audit is full: the order stays where it was.
    assert_eq!((route(), orders.len()), (Err(TryAtomicallyError::Retry), 1));
    assert_eq!(audits.recv().map(|order| order.id), Ok(1));
    assert_eq!((route(), bills.recv().map(|order| order.id)), (Ok("audit"), Ok(2)));
    submit.close();
    assert_eq!(route(), Ok("closed"));
}

#[test]
fn items_become_values() {
    let domain = Domain::new();
    let (tx, rx) = domain.closable::<Order>();
    (0..6).for_each(|id| tx.send(Order { id, total: 0 }).unwrap());
    tx.close();
    let id = |order: Option<Order>| order.map(|order| order.id);
    let (one, (two, number)) = domain.atomically(|tx| Ok((tx.read(&rx)?, (tx.read(&rx)?, 7)))).unwrap();
    assert_eq!((id(one), id(two), number), (Some(0), Some(1), 7));
    let all: Vec<Option<Order>> = domain.atomically(|tx| Ok(vec![tx.read(&rx)?, tx.read(&rx)?])).unwrap();
    assert_eq!(all.len(), 2);
    // An item that is not returned is dropped.
    domain.atomically(|tx| tx.read(&rx).map(drop)).unwrap();
    assert_eq!(rx.len(), 1);
    let last: Result<Order, String> =
        domain.atomically(|tx| Ok(tx.read(&rx)?.ok_or_else(|| "the end".to_owned()))).unwrap();
    assert_eq!(last.unwrap().id, 5);
}

#[test]
fn what_is_written_can_be_read_again() {
    let domain = Domain::new();
    let ((one, one_rx), (two, two_rx)) = (domain.queue::<String>(), domain.queue::<String>());
    one.send("a".into()).unwrap();
    let got = domain.atomically(|tx| {
        let item = tx.read(&one_rx)?;
        tx.write(&two, item)?;
        tx.write(&two, "b".to_owned())?;
        assert_eq!(*tx.peek(&two_rx)?, "a");
        let (a, b) = (tx.read(&two_rx)?, tx.read(&two_rx)?);
        tx.write(&one, b)?;
        Ok(a)
    });
    assert_eq!(got, Ok("a".into()));
    assert_eq!((one_rx.try_recv(), two_rx.len()), (Ok("b".into()), 0));
}

#[test]
fn the_second_branch_runs_if_the_first_retries() {
    let domain = Domain::new();
    let ((a, a_rx), (b, b_rx)) = (domain.queue::<u32>(), domain.queue::<u32>());
    b.send(5).unwrap();
    let next = || {
        domain.try_atomically(|tx| {
            tx.or_else(
                |tx| {
                    tx.write(&b, 9)?;
                    tx.read(&a_rx)
                },
                |tx| tx.read(&b_rx),
            )
        })
    };
    // What the first branch wrote is gone.
    assert_eq!((next(), b_rx.len()), (Ok(5), 0));
    assert_eq!(next(), Err(TryAtomicallyError::Retry));
    a.send(6).unwrap();
    assert_eq!((next(), b_rx.try_recv()), (Ok(6), Ok(9)));
}

#[test]
fn branches_may_be_nested() {
    let domain = Domain::new();
    let ((a, a_rx), (_b, b_rx), (c, c_rx)) = (domain.queue::<u32>(), domain.queue::<u32>(), domain.queue::<u32>());
    (1..=3).for_each(|number| a.send(number).unwrap());
    c.send(7).unwrap();
    let got = domain.atomically(|tx| {
        let first = tx.read(&a_rx)?;
        let second = tx.or_else(
            |tx| {
                let _second = tx.read(&a_rx)?;
                tx.or_else(|tx| tx.read(&b_rx), |tx| tx.retry())
            },
            |tx| tx.or_else(|tx| tx.read(&b_rx), |tx| tx.read(&c_rx)),
        )?;
        let third = tx.read(&a_rx)?;
        Ok((first, second, third))
    });
    assert_eq!(got, Ok((1, 7, 2)));
    assert_eq!(a_rx.try_iter().collect::<Vec<u32>>(), [3]);
}

#[test]
fn an_error_cannot_be_ignored() {
    let domain = Domain::new();
    let ((tx, rx), (_other, empty)) = (domain.queue::<u32>(), domain.queue::<u32>());
    tx.send(1).unwrap();
    let ended = domain.try_atomically(|tx| {
        let _first = tx.read(&rx)?;
        _ = tx.read(&empty);
        assert!(tx.read(&rx).is_err());
        Ok(())
    });
    assert_eq!((ended, rx.try_recv()), (Err(TryAtomicallyError::Retry), Ok(1)));
    // In a branch it is a retry of the branch.
    let ended = domain.try_atomically(|tx| {
        tx.or_else(
            |tx| {
                _ = tx.read(&empty);
                Ok("first")
            },
            |_| Ok("second"),
        )
    });
    assert_eq!(ended, Ok("second"));
}

#[test]
fn a_closure_waits_for_a_change() {
    let domain = Domain::new();
    let ((tx, rx), (done, finished)) = (domain.queue::<u32>(), domain.queue::<u32>());
    let tries = Arc::new(AtomicUsize::new(0));
    let waiter = {
        let (domain, rx, tries) = (domain.clone(), rx.clone(), Arc::clone(&tries));
        thread::spawn(move || {
            domain.atomically(|tx| {
                tries.fetch_add(1, SeqCst);
                let front = tx.peek(&rx)?;
                tx.check(*front == 3)?;
                drop(front);
                let item = tx.read(&rx)?;
                tx.write(&done, item)
            })
        })
    };
    (1..=3).for_each(|number| tx.send(number).unwrap());
    // The closure waits also for a value to be taken by another thread.
    assert_eq!(domain.run((rx.read(), rx.read())), Ok((1, 2)));
    assert_eq!(finished.recv(), Ok(3));
    waiter.join().unwrap().unwrap();
    assert!(tries.load(SeqCst) >= 1);
}

#[test]
fn a_closure_has_a_time() {
    let domain = Domain::new();
    let (tx, rx) = domain.queue::<u32>();
    let short = Duration::from_millis(5);
    assert_eq!(domain.atomically_timeout(|tx| tx.read(&rx), short), Err(AtomicallyTimeoutError::Timeout));
    assert_eq!(domain.atomically_timeout(|tx| tx.retry::<()>(), short), Err(AtomicallyTimeoutError::Timeout));
    tx.send(1).unwrap();
    assert_eq!(domain.atomically_timeout(|tx| tx.read(&rx), short), Ok(1));
}

#[test]
fn a_panic_rolls_back() {
    let domain = Domain::new();
    let ((tx, rx), (log, logs)) = (domain.queue::<String>(), domain.queue::<String>());
    tx.send("kept".into()).unwrap();
    let text = panic_of(|| {
        domain.atomically(|tx| {
            let item = tx.read(&rx)?;
            tx.write(&log, item)?;
            tx.write(&log, "new".to_owned())?;
            tx.or_else(|_| panic!("a bug"), |_| Ok(()))
        })
    });
    assert_eq!(text, "a bug");
    assert_eq!((rx.try_recv(), logs.len()), (Ok("kept".into()), 0));
}

#[test]
fn a_nested_call_panics_and_does_not_hang() {
    let domain = Domain::new();
    let (tx, rx) = domain.closable::<u32>();
    let clear = "a domain was called inside one of its own `atomically` closures: use the closure's `Tx`";
    let calls: [&dyn Fn() -> bool; 6] = [
        &|| {
            rx.close();
            true
        },
        &|| tx.send(1).is_ok(),
        &|| rx.try_recv().is_ok(),
        &|| rx.is_empty(),
        &|| domain.queue::<u8>().0.is_empty(),
        &|| domain.atomically(|_| Ok(())).is_ok(),
    ];
    for call in calls {
        assert_eq!(panic_of(|| domain.atomically(|_| Ok(call()))), clear);
    }
    // Another domain can be called.
    let (other, others) = yalwythen::queue();
    assert_eq!(domain.atomically(|_| Ok(other.send(7).is_ok())), Ok(true));
    assert_eq!(others.recv(), Ok(7));
    // An end that is dropped inside closes its channel afterwards.
    let mut end = Some(tx);
    assert_eq!(domain.atomically(|_| Ok(end.take().is_some())), Ok(true));
    assert!(rx.is_closed());
}

#[test]
fn an_item_that_leaves_the_closure_is_found() {
    let domain = Domain::new();
    let (tx, rx) = domain.queue::<String>();
    tx.send("a".into()).unwrap();
    let mut kept = None;
    let text = panic_of(|| {
        domain.try_atomically(|tx| {
            kept = Some(tx.read(&rx)?);
            tx.retry::<()>()
        })
    });
    assert_eq!(text, "an `Item` or a `Peeked` was kept beyond its `atomically` closure");
    assert_eq!(&**kept.as_ref().unwrap(), "a");
    drop(kept);
    tx.send("b".into()).unwrap();
    assert!(panic_of(|| rx.recv()).starts_with("a value of this channel was kept"));
    assert_eq!(rx.recv(), Ok("b".into()));
    // After a commit it is the item's own.
    tx.send("c".into()).unwrap();
    let mut kept = None;
    assert_eq!(domain.atomically(|tx| Ok(kept.replace(tx.read(&rx)?).is_none())), Ok(true));
    assert_eq!(&**kept.as_ref().unwrap(), "c");
    let text = panic_of(|| domain.atomically(|step| step.write(&tx, kept.take().unwrap())));
    assert_eq!(text, "an `Item` was kept beyond its `atomically` closure");
}

#[test]
fn a_closure_that_can_never_go_on_panics() {
    let domain = Domain::new();
    let text = panic_of(|| domain.atomically(|tx| tx.retry::<()>()));
    assert!(text.starts_with("an `atomically` closure retries without a step"));
    let ((_tx, rx), other) = (yalwythen::queue::<u8>(), domain);
    assert_eq!(panic_of(|| other.atomically(|tx| tx.read(&rx))), "a step is on a channel of another domain");
}

#[test]
fn a_closed_channel_returns_what_is_written() {
    let domain = Domain::new();
    let ((tx, rx), (from, source)) = (domain.closable::<String>(), domain.queue::<String>());
    from.send("item".into()).unwrap();
    tx.close();
    let (value, item) = domain
        .atomically(|step| {
            let item = step.read(&source)?;
            Ok((step.write(&tx, "value".to_owned())?, step.write(&tx, item)?))
        })
        .unwrap();
    assert_eq!((value, item), (Err("value".into()), Err("item".into())));
    assert!(domain.atomically(|step| step.read(&rx)).unwrap().is_none());
    assert!(source.is_empty());
}

#[test]
fn a_closure_closes() {
    let domain = Domain::new();
    let (tx, rx) = domain.closable::<u8>();
    domain
        .atomically(|step| {
            step.write(&tx, 1)?.unwrap();
            step.close(&tx)
        })
        .unwrap();
    assert!(tx.is_closed());
    assert_eq!(rx.iter().collect::<Vec<u8>>(), [1]);
}

#[test]
fn a_closure_reads_and_writes_broadcasts() {
    let domain = Domain::new();
    let (tx, rx) = domain.broadcast_closable::<String>();
    let late = rx.resubscribe().unwrap();
    let text = domain.atomically(|step| {
        step.write(&tx, Arc::new("a".to_owned()))?.unwrap();
        let value = step.read(&rx)?.unwrap();
        step.or_else(
            |step| {
                step.write(&tx, Arc::new("lost".to_owned()))?.unwrap();
                step.retry()
            },
            |_| Ok(value),
        )
    });
    assert_eq!(text.map(|text| text.to_string()), Ok("a".into()));
    drop(tx);
    assert_eq!(
        (rx.iter().count(), late.iter().map(|text| text.to_string()).collect::<Vec<_>>()),
        (0, vec!["a".into()])
    );
}

#[test]
fn values_are_dropped_once() {
    let domain = Domain::new();
    let value = Arc::new(());
    let ((tx, rx), (_empty, nothing)) = (domain.queue::<Arc<()>>(), domain.queue::<u8>());
    for _ in 0..3 {
        let ended = domain.try_atomically(|step| {
            step.write(&tx, Arc::clone(&value))?;
            step.read(&nothing)
        });
        assert!(ended.is_err());
        assert_eq!(Arc::strong_count(&value), 1);
    }
    tx.send(Arc::clone(&value)).unwrap();
    domain.atomically(|step| step.read(&rx).map(drop)).unwrap();
    assert_eq!((Arc::strong_count(&value), rx.len()), (1, 0));
}

#[test]
fn closures_of_many_threads_keep_a_sum() {
    const EACH: u64 = 500;
    let domain = Domain::new();
    let accounts: Vec<_> = (0..4).map(|_| domain.queue::<u64>()).collect();
    accounts.iter().for_each(|(tx, _)| tx.send(1_000).unwrap());
    thread::scope(|scope| {
        for me in 0..4usize {
            let (domain, accounts) = (&domain, &accounts);
            scope.spawn(move || {
                for round in 0..EACH {
                    let (from, to) = (me, (me + 1 + round as usize % 3) % 4);
                    domain
                        .atomically(|tx| {
                            let (one, other) = (*tx.read(&accounts[from].1)?, *tx.read(&accounts[to].1)?);
                            let moved = one.min(round % 7);
                            tx.write(&accounts[from].0, one - moved)?;
                            tx.write(&accounts[to].0, other + moved)
                        })
                        .unwrap();
                }
            });
        }
    });
    assert_eq!(accounts.iter().map(|(_, rx)| rx.recv().unwrap()).sum::<u64>(), 4_000);
}
