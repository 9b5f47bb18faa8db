//! Channels that close with their last end, also in a panic.

use std::sync::Arc;
use std::sync::atomic::{AtomicUsize, Ordering::SeqCst};
use std::thread;
use std::time::Duration;
use yalwythen::{Domain, RecvError, SendError, TryRecvError, TrySendError};

#[test]
fn the_last_sender_closes() {
    let (tx, rx) = yalwythen::closable();
    let other = tx.clone();
    drop(tx);
    other.send(1).unwrap();
    assert!(!rx.is_closed());
    drop(other);
    assert!(rx.is_closed());
    assert_eq!((rx.recv(), rx.recv(), rx.try_recv()), (Ok(1), Err(RecvError::Closed), Err(TryRecvError::Closed)));
}

#[test]
fn a_writer_that_panics_ends_its_readers() {
    let (tx, rx) = yalwythen::closable();
    let readers: Vec<_> = (0..3)
        .map(|_| {
            let rx = rx.clone();
            thread::spawn(move || rx.iter().count())
        })
        .collect();
    let writer = thread::spawn(move || {
        tx.send(1).unwrap();
        thread::sleep(Duration::from_millis(10));
        panic!("a bug");
    });
    assert!(writer.join().is_err());
    assert_eq!(readers.into_iter().map(|reader| reader.join().unwrap()).sum::<usize>(), 1);
}

#[test]
fn a_writer_that_panics_in_a_scope_does_not_hang_it() {
    let (tx, rx) = yalwythen::bounded_closable::<u8>(1).unwrap();
    let ended = thread::spawn(move || {
        thread::scope(|scope| {
            scope.spawn(move || {
                let _tx = tx;
                panic!("a bug");
            });
            scope.spawn(move || assert_eq!(rx.recv(), Err(RecvError::Closed)));
        });
    });
    assert!(ended.join().is_err());
}

#[test]
fn the_last_receiver_closes_and_drops_what_is_left() {
    let value = Arc::new(());
    let (tx, rx) = yalwythen::bounded_closable(2).unwrap();
    tx.send(Arc::clone(&value)).unwrap();
    tx.send(Arc::clone(&value)).unwrap();
    let writer = {
        let (tx, value) = (tx.clone(), Arc::clone(&value));
        thread::spawn(move || tx.send(value))
    };
    thread::sleep(Duration::from_millis(10));
    drop(rx);
    assert!(writer.join().unwrap().unwrap_err().is_closed());
    assert_eq!(Arc::strong_count(&value), 1);
    assert!(matches!(tx.try_send(Arc::clone(&value)), Err(TrySendError::Closed(_))));
}

#[test]
fn a_queue_may_carry_its_own_ends() {
    let dropped = Arc::new(AtomicUsize::new(0));
    struct Noted<T>(#[allow(dead_code)] T, Arc<AtomicUsize>);
    impl<T> Drop for Noted<T> {
        fn drop(&mut self) {
            self.1.fetch_add(1, SeqCst);
        }
    }
    let domain = Domain::new();
    let ((tx, rx), (inner, _inner_rx)) = (domain.closable(), domain.closable::<u8>());
    tx.send(Noted(inner, Arc::clone(&dropped))).unwrap();
    drop((tx, rx));
    assert_eq!(dropped.load(SeqCst), 1);
}

#[test]
fn all_close_at_once() {
    let domain = Domain::new();
    let ((a, a_rx), (b, b_rx)) = (domain.closable::<u8>(), domain.closable::<u8>());
    let reader = thread::spawn(move || {
        // It never sees one closed and the other one open.
        while !a_rx.is_closed() {
            thread::yield_now();
        }
        b_rx.is_closed()
    });
    domain.run((a.closing(), b.closing())).unwrap();
    assert!(reader.join().unwrap());
    assert_eq!(a.send(1), Err(SendError::Closed(1)));
    a.close();
}

#[test]
fn values_that_nobody_reads_are_dropped_with_the_domain() {
    let value = Arc::new(());
    let domain = Domain::new();
    let ((tx, rx), (cast, subscriber)) = (domain.queue(), domain.broadcast());
    tx.send(Arc::clone(&value)).unwrap();
    cast.send(Arc::new(Arc::clone(&value))).unwrap();
    drop((tx, rx, cast, subscriber));
    drop(domain);
    assert_eq!(Arc::strong_count(&value), 1);
}

#[test]
fn a_value_may_panic_in_its_drop() {
    struct Bomb;
    impl Drop for Bomb {
        fn drop(&mut self) {
            if !thread::panicking() {
                panic!("in drop");
            }
        }
    }
    let domain = Domain::new();
    let ((tx, rx), (other, others)) = (domain.closable(), domain.closable());
    tx.send(Bomb).unwrap();
    assert!(thread::spawn(move || drop(rx)).join().is_err());
    other.send(1).unwrap();
    assert_eq!(others.recv(), Ok(1));
    assert!(tx.is_closed());
}
