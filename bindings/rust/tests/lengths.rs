//! The lengths of long queues.

use std::sync::Arc;
use std::thread;
use yalwythen::Domain;

const MANY: usize = 100_000;

/// The largest bound.
const BOUND: usize = 65_535;

#[test]
fn a_long_queue_has_its_length() {
    let (tx, rx) = yalwythen::queue();
    for number in 0..MANY {
        tx.send(number).unwrap();
    }
    assert_eq!((tx.len(), rx.len()), (MANY, MANY));
    assert!(!tx.is_empty() && !tx.is_full());
    for number in 0..MANY - 1 {
        assert_eq!(rx.recv(), Ok(number));
    }
    assert_eq!((tx.len(), rx.len()), (1, 1));
    rx.recv().unwrap();
    assert!(tx.is_empty() && rx.is_empty());
}

#[test]
fn a_queue_is_full_at_the_largest_bound() {
    let (tx, rx) = yalwythen::bounded_closable(BOUND).unwrap();
    for number in 0..BOUND {
        assert!(!(number % 10_000 == 0 && tx.is_full()));
        tx.try_send(number).unwrap();
    }
    assert_eq!(tx.len(), BOUND);
    assert!(tx.is_full() && tx.try_send(0).unwrap_err().is_full());
    rx.recv().unwrap();
    assert!(!tx.is_full());
    tx.close();
    assert_eq!(rx.len(), BOUND - 1);
    assert_eq!(rx.iter().count(), BOUND - 1);
    assert_eq!(rx.len(), 0);
}

#[test]
fn each_subscriber_has_a_length_of_its_own() {
    const EACH: usize = 20_000;
    let (tx, first) = yalwythen::broadcast();
    (0..EACH).for_each(|number| tx.send(Arc::new(number)).unwrap());
    let (second, third) = (first.clone(), first.resubscribe().unwrap());
    (0..EACH).for_each(|number| tx.send(Arc::new(number)).unwrap());
    (0..EACH).for_each(|_| _ = first.recv().unwrap());
    assert_eq!([first.len(), second.len(), third.len()], [EACH, 2 * EACH, EACH]);
}

#[test]
fn a_length_counts_whole_transactions() {
    let domain = Domain::new();
    let (tx, rx) = domain.queue();
    thread::scope(|scope| {
        scope.spawn(|| {
            for number in 0..1000 {
                domain.run((tx.write(number), tx.write(number))).unwrap();
            }
        });
        for _ in 0..200 {
            assert_eq!(rx.len() % 2, 0);
        }
    });
    assert_eq!(rx.len(), 2000);
}
