//! Queues without a bound: scenarios named after those of crossbeam-channel's `list.rs`, written anew.
//!
//! All have a counterpart, with fewer rounds and shorter times. `fairness` differs: crossbeam's selections are random,
//! and ours are tried in order.

use std::sync::Arc;
use std::sync::atomic::{AtomicUsize, Ordering::SeqCst};
use std::thread;
use std::time::{Duration, Instant};
use yalwythen::kinds::Closable;
use yalwythen::{
    Receiver, RecvError, RecvTimeoutError, SendError, SendTimeoutError, TryRecvError, TrySendError, closable, queue,
    select,
};

const SHORT: Duration = Duration::from_millis(20);

fn later(action: impl FnOnce() + Send + 'static) -> thread::JoinHandle<()> {
    thread::spawn(move || {
        thread::sleep(SHORT);
        action();
    })
}

#[test]
fn smoke() {
    let (tx, rx) = queue();
    tx.try_send(7).unwrap();
    assert_eq!(rx.try_recv(), Ok(7));
    tx.send(8).unwrap();
    assert_eq!(rx.recv(), Ok(8));
    assert_eq!(rx.try_recv(), Err(TryRecvError::Empty));
    assert_eq!(rx.recv_timeout(SHORT), Err(RecvTimeoutError::Timeout));
}

#[test]
fn capacity() {
    let (tx, rx) = queue::<()>();
    assert_eq!((tx.capacity(), rx.capacity()), (None, None));
}

#[test]
fn len_empty_full() {
    let (tx, rx) = queue();
    assert!((tx.len(), tx.is_empty(), tx.is_full()) == (0, true, false));
    assert!((rx.len(), rx.is_empty(), rx.is_full()) == (0, true, false));
    tx.send(()).unwrap();
    assert!((tx.len(), tx.is_empty(), tx.is_full()) == (1, false, false));
    assert!((rx.len(), rx.is_empty(), rx.is_full()) == (1, false, false));
    rx.recv().unwrap();
    assert!(tx.is_empty() && rx.is_empty());
}

#[test]
fn try_recv() {
    let (tx, rx) = closable();
    assert_eq!(rx.try_recv(), Err(TryRecvError::Empty));
    tx.send(7).unwrap();
    assert_eq!(rx.try_recv(), Ok(7));
    drop(tx);
    assert_eq!(rx.try_recv(), Err(TryRecvError::Closed));
}

#[test]
fn recv() {
    let (tx, rx) = closable();
    let sender = later(move || (7..9).for_each(|number| tx.send(number).unwrap()));
    assert_eq!([rx.recv(), rx.recv(), rx.recv()], [Ok(7), Ok(8), Err(RecvError::Closed)]);
    sender.join().unwrap();
}

#[test]
fn recv_timeout() {
    let (tx, rx) = closable();
    let began = Instant::now();
    assert_eq!(rx.recv_timeout(SHORT), Err(RecvTimeoutError::Timeout));
    assert!(began.elapsed() >= SHORT);
    let sender = later(move || tx.send(7).unwrap());
    assert_eq!(rx.recv_timeout(100 * SHORT), Ok(7));
    assert_eq!(rx.recv_timeout(100 * SHORT), Err(RecvTimeoutError::Closed));
    sender.join().unwrap();
    assert_eq!(rx.recv_deadline(Instant::now()), Err(RecvTimeoutError::Closed));
}

#[test]
fn try_send() {
    let (tx, _rx) = queue();
    (0..1000).for_each(|number| tx.try_send(number).unwrap());
}

#[test]
fn send() {
    let (tx, _rx) = queue();
    (0..1000).for_each(|number| tx.send(number).unwrap());
}

#[test]
fn send_timeout() {
    let (tx, _rx) = queue();
    (0..1000).for_each(|number| tx.send_timeout(number, SHORT).unwrap());
}

#[test]
fn send_after_disconnect() {
    let (tx, rx) = closable();
    (1..4).for_each(|number| tx.send(number).unwrap());
    drop(rx);
    assert_eq!(tx.send(4), Err(SendError::Closed(4)));
    assert_eq!(tx.try_send(5), Err(TrySendError::Closed(5)));
    assert_eq!(tx.send_timeout(6, SHORT), Err(SendTimeoutError::Closed(6)));
    assert_eq!(tx.send_deadline(7, Instant::now()), Err(SendTimeoutError::Closed(7)));
}

#[test]
fn recv_after_disconnect() {
    let (tx, rx) = closable();
    (1..4).for_each(|number| tx.send(number).unwrap());
    drop(tx);
    assert_eq!([rx.recv(), rx.recv(), rx.recv(), rx.recv()], [Ok(1), Ok(2), Ok(3), Err(RecvError::Closed)]);
}

#[test]
fn len() {
    let (tx, rx) = closable();
    for number in 0..50 {
        tx.send(number).unwrap();
        assert_eq!((tx.len(), rx.len()), (number + 1, number + 1));
    }
    for number in 0..50 {
        rx.recv().unwrap();
        assert_eq!((tx.len(), rx.len()), (49 - number, 49 - number));
    }
}

#[test]
fn disconnect_wakes_receiver() {
    let (tx, rx) = closable::<()>();
    let receiver = thread::spawn(move || assert_eq!(rx.recv(), Err(RecvError::Closed)));
    thread::sleep(SHORT);
    drop(tx);
    receiver.join().unwrap();
}

#[test]
fn spsc() {
    const COUNT: usize = 20_000;
    let (tx, rx) = closable();
    thread::scope(|scope| {
        scope.spawn(move || {
            (0..COUNT).for_each(|number| assert_eq!(rx.recv(), Ok(number)));
            assert_eq!(rx.recv(), Err(RecvError::Closed));
        });
        scope.spawn(move || (0..COUNT).for_each(|number| tx.send(number).unwrap()));
    });
}

#[test]
fn mpmc() {
    const COUNT: usize = 5_000;
    const THREADS: usize = 4;
    let (tx, rx) = queue::<usize>();
    let seen: Vec<AtomicUsize> = (0..COUNT).map(|_| AtomicUsize::new(0)).collect();
    thread::scope(|scope| {
        for _ in 0..THREADS {
            scope.spawn(|| (0..COUNT).for_each(|_| _ = seen[rx.recv().unwrap()].fetch_add(1, SeqCst)));
            scope.spawn(|| (0..COUNT).for_each(|number| tx.send(number).unwrap()));
        }
    });
    assert_eq!(rx.try_recv(), Err(TryRecvError::Empty));
    assert!(seen.iter().all(|count| count.load(SeqCst) == THREADS));
}

#[test]
fn stress_oneshot() {
    for _ in 0..500 {
        let (tx, rx) = closable();
        thread::scope(|scope| {
            scope.spawn(|| rx.recv().unwrap());
            scope.spawn(|| tx.send(0).unwrap());
        });
    }
}

#[test]
fn stress_iter() {
    const COUNT: usize = 1_000;
    let (ask, asked) = closable();
    let (tell, heard) = closable();
    let answers = thread::spawn(move || {
        let mut count = 0;
        while asked.try_iter().chain(asked.recv()).map(|()| count += 1).next().is_some() {
            if tell.send(count).is_err() {
                return;
            }
        }
    });
    for _ in 0..COUNT {
        ask.send(()).unwrap();
    }
    drop(ask);
    assert!(heard.iter().is_sorted_by(|one, next| one < next));
    answers.join().unwrap();
}

#[test]
fn stress_timeout_two_threads() {
    const COUNT: usize = 60;
    let (tx, rx) = queue();
    thread::scope(|scope| {
        scope.spawn(|| {
            for number in 0..COUNT {
                if number % 2 == 0 {
                    thread::sleep(SHORT / 10);
                }
                tx.send_timeout(number, SHORT).unwrap();
            }
        });
        scope.spawn(|| {
            for number in 0..COUNT {
                if number % 3 == 0 {
                    thread::sleep(SHORT / 10);
                }
                let received = std::iter::repeat_with(|| rx.recv_timeout(SHORT / 20)).find_map(Result::ok);
                assert_eq!(received, Some(number));
            }
        });
    });
}

struct Counted(Arc<AtomicUsize>);

impl Drop for Counted {
    fn drop(&mut self) {
        self.0.fetch_add(1, SeqCst);
    }
}

#[test]
fn drops() {
    for round in 0..20 {
        let (steps, additional) = (37 * round, 5 * round);
        let drops = Arc::new(AtomicUsize::new(0));
        let (tx, rx) = closable();
        thread::scope(|scope| {
            scope.spawn(|| (0..steps).for_each(|_| drop(rx.recv().unwrap())));
            scope.spawn(|| (0..steps).for_each(|_| assert!(tx.send(Counted(Arc::clone(&drops))).is_ok())));
        });
        (0..additional).for_each(|_| assert!(tx.send(Counted(Arc::clone(&drops))).is_ok()));
        assert_eq!(drops.load(SeqCst), steps);
        drop((tx, rx));
        assert_eq!(drops.load(SeqCst), steps + additional);
    }
}

#[test]
fn linearizable() {
    let (tx, rx) = queue();
    thread::scope(|scope| {
        for _ in 0..4 {
            scope.spawn(|| {
                for _ in 0..5_000 {
                    tx.send(0).unwrap();
                    rx.try_recv().unwrap();
                }
            });
        }
    });
}

/// Selections are tried in order, so fairness is the caller's: a queue that is read first can starve others.
#[test]
fn fairness() {
    let domain = yalwythen::Domain::new();
    let ((one, one_rx), (other, other_rx)) = (domain.queue(), domain.queue());
    (0..100).for_each(|_| domain.run((one.write(()), other.write(()))).map(|_| ()).unwrap());
    let mut order = Vec::new();
    for _ in 0..200 {
        select! {
            recv(one_rx) -> _value => order.push(0),
            recv(other_rx) -> _value => order.push(1),
        }
    }
    assert!(order.is_sorted());
}

#[test]
fn fairness_duplicates() {
    let (tx, rx) = queue();
    (0..100).for_each(|number| tx.send(number).unwrap());
    let mut order = Vec::new();
    for _ in 0..100 {
        select! {
            recv(rx) -> value => order.push(value.unwrap()),
            recv(rx) -> _value => panic!("the first alternative is tried first"),
        }
    }
    assert!(order.into_iter().eq(0..100));
}

#[test]
fn recv_in_send() {
    let (tx, rx) = closable();
    tx.send(1).unwrap();
    // The value is made before the selection, and may come from the same queue.
    select! {
        send(tx, rx.recv().unwrap() + 1) -> sent => sent.unwrap(),
    }
    assert_eq!(rx.try_recv(), Ok(2));
}

#[test]
fn channel_through_channel() {
    const COUNT: usize = 200;
    struct Next(Option<Receiver<Next, Closable>>);
    let (mut tx, mut rx) = closable::<Next>();
    let chain = thread::spawn(move || {
        for _ in 0..COUNT {
            let (next_tx, next_rx) = closable();
            assert!(tx.send(Next(Some(next_rx))).is_ok());
            tx = next_tx;
        }
        assert!(tx.send(Next(None)).is_ok());
    });
    let mut count = 0;
    while let Some(next) = rx.recv().unwrap().0 {
        rx = next;
        count += 1;
    }
    assert_eq!(count, COUNT);
    chain.join().unwrap();
}
