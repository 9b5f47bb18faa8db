//! Many senders, one receiver: scenarios named after those of crossbeam-channel's `mpsc.rs` (which are std's), written
//! anew. `mpsc_times.rs` has the second half.
//!
//! Without a counterpart:
//! - `*_rendezvous`, `smoke_shared_port_gone2` of `sync_channel(0)`: no channel has a rendezvous;
//! - `send_from_outside_runtime`, `recv_from_outside_runtime`, `no_runtime`: they are of a runtime that is gone;
//! - `destroy_upgraded_shared_port_when_sender_still_active`, `recv_timeout_upgrade`: no channel is upgraded; the
//!   scenarios that are left of them are here under these names;
//! - `drop_full_shared` of a receiver that waits in `select_tests`: see `select.rs` and `golang.rs`.

use std::thread;
use yalwythen::{RecvError, TryRecvError, TrySendError, bounded_closable, closable, queue};

const ROUNDS: usize = 300;

#[test]
fn smoke() {
    let (tx, rx) = closable();
    tx.send(1).unwrap();
    assert_eq!(rx.recv(), Ok(1));
}

#[test]
fn drop_full() {
    let (tx, _rx) = closable();
    tx.send(Box::new(1)).unwrap();
}

#[test]
fn drop_full_shared() {
    let (tx, _rx) = closable();
    drop(tx.clone());
    tx.send(Box::new(1)).unwrap();
}

#[test]
fn smoke_shared() {
    let (tx, rx) = closable();
    tx.send(1).unwrap();
    assert_eq!(rx.recv(), Ok(1));
    let other = tx.clone();
    other.send(1).unwrap();
    assert_eq!(rx.recv(), Ok(1));
}

#[test]
fn smoke_threads() {
    let (tx, rx) = closable();
    let sender = thread::spawn(move || tx.send(1).unwrap());
    assert_eq!(rx.recv(), Ok(1));
    sender.join().unwrap();
}

#[test]
fn smoke_port_gone() {
    let (tx, rx) = closable();
    drop(rx);
    assert!(tx.send(1).is_err());
}

#[test]
fn smoke_shared_port_gone() {
    let (tx, rx) = closable();
    let other = tx.clone();
    drop(rx);
    assert!(tx.send(1).is_err() && other.send(1).is_err());
}

#[test]
fn smoke_shared_port_gone2() {
    let (tx, rx) = closable();
    drop(rx);
    let other = tx.clone();
    drop(tx);
    assert!(other.send(1).is_err());
}

#[test]
fn port_gone_concurrent() {
    let (tx, rx) = closable();
    let receiver = thread::spawn(move || assert_eq!(rx.recv(), Ok(1)));
    while tx.send(1).is_ok() {}
    receiver.join().unwrap();
}

#[test]
fn port_gone_concurrent_shared() {
    let (tx, rx) = closable();
    let other = tx.clone();
    let receiver = thread::spawn(move || assert_eq!(rx.recv(), Ok(1)));
    while tx.send(1).is_ok() && other.send(1).is_ok() {}
    receiver.join().unwrap();
}

#[test]
fn smoke_chan_gone() {
    let (tx, rx) = closable::<i32>();
    drop(tx);
    assert!(rx.recv().is_err());
}

#[test]
fn smoke_chan_gone_shared() {
    let (tx, rx) = closable::<()>();
    let other = tx.clone();
    drop(tx);
    drop(other);
    assert!(rx.recv().is_err());
}

#[test]
fn chan_gone_concurrent() {
    let (tx, rx) = closable();
    let sender = thread::spawn(move || (0..2).for_each(|_| tx.send(1).unwrap()));
    while rx.recv().is_ok() {}
    sender.join().unwrap();
}

#[test]
fn stress() {
    const COUNT: usize = 5_000;
    let (tx, rx) = closable();
    let sender = thread::spawn(move || (0..COUNT).for_each(|_| tx.send(1).unwrap()));
    (0..COUNT).for_each(|_| assert_eq!(rx.recv(), Ok(1)));
    sender.join().unwrap();
}

#[test]
fn stress_shared() {
    const AMOUNT: u32 = 1_000;
    const THREADS: u32 = 8;
    let (tx, rx) = closable();
    let receiver = thread::spawn(move || {
        (0..AMOUNT * THREADS).for_each(|_| assert_eq!(rx.recv(), Ok(1)));
        assert_eq!(rx.recv(), Err(RecvError::Closed));
    });
    for _ in 0..THREADS {
        let tx = tx.clone();
        thread::spawn(move || (0..AMOUNT).for_each(|_| tx.send(1).unwrap()));
    }
    drop(tx);
    receiver.join().unwrap();
}

#[test]
fn oneshot_single_thread_close_port_first() {
    let (tx, rx) = closable::<i32>();
    drop(rx);
    drop(tx);
}

#[test]
fn oneshot_single_thread_close_chan_first() {
    let (tx, rx) = closable::<i32>();
    drop(tx);
    drop(rx);
}

#[test]
fn oneshot_single_thread_send_port_close() {
    let (tx, rx) = closable::<Box<i32>>();
    drop(rx);
    assert_eq!(tx.send(Box::new(0)).unwrap_err().into_inner(), Box::new(0));
}

#[test]
fn oneshot_single_thread_recv_chan_close() {
    let (tx, rx) = closable::<i32>();
    drop(tx);
    assert_eq!(rx.recv(), Err(RecvError::Closed));
}

#[test]
fn oneshot_single_thread_send_then_recv() {
    let (tx, rx) = closable::<Box<i32>>();
    tx.send(Box::new(10)).unwrap();
    assert_eq!(rx.recv(), Ok(Box::new(10)));
}

#[test]
fn oneshot_single_thread_try_send_open() {
    let (tx, rx) = bounded_closable(1).unwrap();
    assert_eq!(tx.try_send(10), Ok(()));
    assert_eq!(rx.recv(), Ok(10));
}

#[test]
fn oneshot_single_thread_try_send_closed() {
    let (tx, rx) = closable::<i32>();
    drop(rx);
    assert_eq!(tx.try_send(10), Err(TrySendError::Closed(10)));
}

#[test]
fn oneshot_single_thread_try_send_closed2() {
    let (tx, _rx) = bounded_closable(1).unwrap();
    assert_eq!(tx.try_send(1), Ok(()));
    assert_eq!(tx.try_send(2), Err(TrySendError::Full(2)));
}

#[test]
fn oneshot_single_thread_try_recv_open() {
    let (tx, rx) = closable::<i32>();
    tx.send(10).unwrap();
    assert_eq!(rx.try_recv(), Ok(10));
}

#[test]
fn oneshot_single_thread_try_recv_closed() {
    let (tx, rx) = closable::<i32>();
    drop(tx);
    assert_eq!(rx.try_recv(), Err(TryRecvError::Closed));
}

#[test]
fn oneshot_single_thread_peek_data() {
    let (tx, rx) = queue::<i32>();
    let domain = rx.domain();
    assert!(domain.try_run(rx.peek()).is_err());
    tx.send(10).unwrap();
    assert_eq!(domain.run(rx.peek()), Ok(10));
    assert_eq!(rx.try_recv(), Ok(10));
}

#[test]
fn oneshot_single_thread_peek_close() {
    let (tx, rx) = closable::<i32>();
    drop(tx);
    assert_eq!(rx.domain().run((rx.peek(), rx.peek())), Ok((None, None)));
}

#[test]
fn oneshot_single_thread_peek_open() {
    let (_tx, rx) = queue::<i32>();
    assert_eq!(rx.try_recv(), Err(TryRecvError::Empty));
}

#[test]
fn oneshot_multi_task_recv_then_send() {
    let (tx, rx) = closable::<Box<i32>>();
    let receiver = thread::spawn(move || assert_eq!(rx.recv(), Ok(Box::new(10))));
    tx.send(Box::new(10)).unwrap();
    receiver.join().unwrap();
}

#[test]
fn oneshot_multi_task_recv_then_close() {
    let (tx, rx) = closable::<Box<i32>>();
    let closer = thread::spawn(move || drop(tx));
    let receiver = thread::spawn(move || assert_eq!(rx.recv().unwrap(), Box::new(10)));
    assert!(receiver.join().is_err());
    closer.join().unwrap();
}

#[test]
fn oneshot_multi_thread_close_stress() {
    for _ in 0..ROUNDS {
        let (tx, rx) = closable::<i32>();
        let closer = thread::spawn(move || drop(rx));
        drop(tx);
        closer.join().unwrap();
    }
}

#[test]
fn oneshot_multi_thread_send_close_stress() {
    for _ in 0..ROUNDS {
        let (tx, rx) = closable::<i32>();
        let closer = thread::spawn(move || drop(rx));
        let sender = thread::spawn(move || tx.send(1));
        let _ = sender.join().unwrap();
        closer.join().unwrap();
    }
}

#[test]
fn oneshot_multi_thread_recv_close_stress() {
    for _ in 0..ROUNDS {
        let (tx, rx) = closable::<i32>();
        let receiver = thread::spawn(move || assert_eq!(rx.recv(), Err(RecvError::Closed)));
        let closer = thread::spawn(move || drop(tx));
        closer.join().unwrap();
        receiver.join().unwrap();
    }
}

#[test]
fn oneshot_multi_thread_send_recv_stress() {
    for _ in 0..ROUNDS {
        let (tx, rx) = closable::<Box<i32>>();
        let sender = thread::spawn(move || tx.send(Box::new(10)).unwrap());
        let receiver = thread::spawn(move || assert_eq!(rx.recv(), Ok(Box::new(10))));
        sender.join().unwrap();
        receiver.join().unwrap();
    }
}

#[test]
fn stream_send_recv_stress() {
    for _ in 0..ROUNDS / 3 {
        let (tx, rx) = closable();
        let sender = thread::spawn(move || (0..10).for_each(|number| tx.send(Box::new(number)).unwrap()));
        let receiver = thread::spawn(move || assert!(rx.iter().map(|number| *number).eq(0..10)));
        sender.join().unwrap();
        receiver.join().unwrap();
    }
}
