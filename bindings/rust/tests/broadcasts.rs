//! Broadcasts and their subscribers.

use std::sync::Arc;
use std::thread;
use std::time::Duration;
use yalwythen::{Domain, RecvError, RecvTimeoutError, SubscribeError, TryRecvError};

#[test]
fn each_subscriber_gets_every_value() {
    let (tx, first) = yalwythen::broadcast();
    tx.send(Arc::new(1)).unwrap();
    let (clone, late) = (first.clone(), first.resubscribe().unwrap());
    tx.send(Arc::new(2)).unwrap();
    let all =
        |subscriber: &yalwythen::Subscriber<i32, _>| subscriber.try_iter().map(|value| *value).collect::<Vec<_>>();
    assert_eq!((clone.len(), late.len()), (2, 1));
    assert_eq!([all(&first), all(&clone), all(&late)], [vec![1, 2], vec![1, 2], vec![2]]);
    assert_eq!(late.try_recv(), Err(TryRecvError::Empty));
    assert_eq!(late.recv_timeout(Duration::from_millis(2)), Err(RecvTimeoutError::Timeout));
}

#[test]
fn a_closed_broadcast_ends() {
    let (tx, first) = yalwythen::broadcast_closable();
    tx.send(Arc::new("a")).unwrap();
    let second = first.clone();
    tx.close();
    assert!(first.is_closed() && tx.send(Arc::new("b")).is_err());
    assert_eq!((first.iter().count(), second.iter().count()), (1, 1));
    assert_eq!(second.recv(), Err(RecvError::Closed));
}

#[test]
fn a_value_is_dropped_once_all_have_it() {
    let value = Arc::new(7);
    let (tx, first) = yalwythen::broadcast();
    let second = first.clone();
    tx.send(Arc::clone(&value)).unwrap();
    assert_eq!(*first.recv().unwrap(), 7);
    assert_eq!(Arc::strong_count(&value), 2);
    drop(second);
    assert_eq!(Arc::strong_count(&value), 1);
    drop(first);
    // Nobody listens.
    tx.send(Arc::clone(&value)).unwrap();
    assert_eq!(Arc::strong_count(&value), 1);
    let again = tx.subscribe().unwrap();
    tx.send(Arc::clone(&value)).unwrap();
    assert_eq!(*again.recv().unwrap(), 7);
}

#[test]
fn subscribers_may_come_and_go() {
    let (tx, first) = yalwythen::broadcast::<u32>();
    for round in 0..500 {
        let (clone, late) = (first.clone(), tx.subscribe().unwrap());
        tx.send(Arc::new(round)).unwrap();
        assert_eq!((*clone.recv().unwrap(), *late.recv().unwrap(), *first.recv().unwrap()), (round, round, round));
        // An idle reader is emptied, so that no value is read twice.
        drop((clone, late));
        tx.send(Arc::new(1_000)).unwrap();
        assert_eq!(*first.recv().unwrap(), 1_000);
    }
}

#[test]
fn a_clone_of_many_gets_what_is_left() {
    let (tx, first) = yalwythen::broadcast::<u32>();
    // All 64 readers were used, so a clone gets a copy.
    let others: Vec<_> = (0..63).map(|_| first.clone()).collect();
    assert_eq!(first.try_clone().err(), Some(SubscribeError::TooManySubscribers));
    assert_eq!(tx.subscribe().err(), Some(SubscribeError::TooManySubscribers));
    (0..40).for_each(|number| tx.send(Arc::new(number)).unwrap());
    drop(others);
    assert_eq!(*first.recv().unwrap(), 0);
    let (clone, late) = (first.try_clone().unwrap(), first.resubscribe().unwrap());
    tx.send(Arc::new(40)).unwrap();
    assert_eq!(clone.len(), 40);
    assert!(clone.try_iter().map(|number| *number).eq(1..41));
    assert!(first.try_iter().map(|number| *number).eq(1..41));
    assert_eq!(late.try_iter().map(|number| *number).collect::<Vec<u32>>(), [40]);
}

#[test]
fn broadcasts_take_part_in_transactions() {
    let domain = Domain::new();
    let ((tx, rx), (log, logs)) = (domain.broadcast_closable(), domain.queue());
    let other = rx.clone();
    assert_eq!(domain.run((tx.write(Arc::new(1)), log.write("sent"))), Ok((Ok(()), ())));
    assert_eq!(domain.run((rx.read(), other.read(), logs.read())).unwrap().2, "sent");
    let replies = domain.run((tx.write(Arc::new(2)), tx.closing(), tx.write(Arc::new(3)))).unwrap();
    assert_eq!(replies, (Ok(()), (), Err(Arc::new(3))));
    assert_eq!(rx.iter().map(|value| *value).collect::<Vec<i32>>(), [2]);
    assert!(tx.same_channel(&tx.clone()) && rx.same_channel(&other) && rx.domain().same_domain(&domain));
}

#[test]
fn a_write_without_subscribers_that_fails_comes_back() {
    let domain = Domain::new();
    let (tx, rx) = domain.broadcast_closable();
    drop(rx);
    let replies = domain.run((tx.write(Arc::new(1)), tx.closing(), tx.write(Arc::new(2)))).unwrap();
    assert_eq!(replies, (Ok(()), (), Err(Arc::new(2))));
}

#[test]
fn all_subscribers_get_the_same_order() {
    const EACH: usize = 2_000;
    let (tx, first) = yalwythen::broadcast_closable();
    let readers: Vec<_> = [first.clone(), first.clone(), first]
        .map(|subscriber| thread::spawn(move || subscriber.iter().map(|value| *value).collect::<Vec<usize>>()))
        .into();
    let writers: Vec<_> = (0..2)
        .map(|parity| {
            let tx = tx.clone();
            thread::spawn(move || (0..EACH).for_each(|number| tx.send(Arc::new(2 * number + parity)).unwrap()))
        })
        .collect();
    drop(tx);
    writers.into_iter().for_each(|writer| writer.join().unwrap());
    let all: Vec<Vec<usize>> = readers.into_iter().map(|reader| reader.join().unwrap()).collect();
    assert!(all.iter().all(|values| *values == all[0]));
    for parity in 0..2 {
        assert!(all[0].iter().filter(|value| *value % 2 == parity).copied().eq((parity..2 * EACH).step_by(2)));
    }
}
