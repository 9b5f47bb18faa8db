//! Scenarios named after those of crossbeam-channel's `golang.rs` (which are Go's), written anew.
//!
//! Without a counterpart:
//! - `nil` channels, `chan_fibonacci` of goroutines by the thousand, and the parts about the garbage collector;
//! - `zerosize` and `goroutines` in their sizes: they are here with fewer threads;
//! - `select` with `after`, `tick` and `never`: a selection has a timeout in their place;
//! - random fairness of `select`: alternatives are tried in order.

use std::thread;
use std::time::Duration;
use yalwythen::kinds::{BoundedClosable, Closable};
use yalwythen::{
    Domain, Receiver, RecvError, Sender, TryRecvError, TrySendError, bounded, bounded_closable, closable, queue, select,
};

/// Sends the alternatives to whichever of two queues has space.
#[test]
fn doubleselect() {
    const COUNT: u64 = 3_000;
    let domain = Domain::new();
    let ends: Vec<(Sender<u64, BoundedClosable>, Receiver<u64, BoundedClosable>)> =
        (0..4).map(|_| domain.bounded_closable(1).unwrap()).collect();
    let (senders, receivers): (Vec<_>, Vec<_>) = ends.into_iter().unzip();
    let (all, merged) = closable();
    thread::scope(|scope| {
        scope.spawn(move || {
            for number in 0..COUNT {
                select! {
                    send(senders[0], number) -> sent => sent.unwrap(),
                    send(senders[1], number) -> sent => sent.unwrap(),
                    send(senders[2], number) -> sent => sent.unwrap(),
                    send(senders[3], number) -> sent => sent.unwrap(),
                }
            }
        });
        for receiver in receivers {
            let all = all.clone();
            scope.spawn(move || receiver.iter().for_each(|number| all.send(number).unwrap()));
        }
        drop(all);
        let mut numbers: Vec<u64> = merged.iter().collect();
        numbers.sort_unstable();
        assert!(numbers.into_iter().eq(0..COUNT));
    });
}

/// A chain of threads: each thread hands its turn on.
#[test]
fn fifo() {
    const COUNT: usize = 10;
    let (tx, rx) = bounded(COUNT).unwrap();
    (0..COUNT).for_each(|number| tx.send(number).unwrap());
    assert!((0..COUNT).all(|number| rx.recv() == Ok(number)));
    let (first, mut turn) = queue::<usize>();
    thread::scope(|scope| {
        for number in 0..COUNT {
            let (next, next_turn) = queue();
            let mine = std::mem::replace(&mut turn, next_turn);
            let tx = &tx;
            scope.spawn(move || {
                mine.recv().unwrap();
                tx.send(number).unwrap();
                next.send(number).unwrap();
            });
        }
        first.send(0).unwrap();
        turn.recv().unwrap();
    });
    assert!(rx.try_iter().eq(0..COUNT));
}

#[test]
fn goroutines() {
    let (leftmost, mut left) = closable::<usize>();
    let threads: Vec<_> = (0..60)
        .map(|_| {
            let (tx, rx) = closable();
            let from = std::mem::replace(&mut left, rx);
            thread::spawn(move || tx.send(from.recv().unwrap() + 1).unwrap())
        })
        .collect();
    leftmost.send(0).unwrap();
    assert_eq!(left.recv(), Ok(60));
    threads.into_iter().for_each(|thread| thread.join().unwrap());
}

#[test]
fn nonblock() {
    let (tx, rx) = bounded(1).unwrap();
    assert_eq!(rx.try_recv(), Err(TryRecvError::Empty));
    select! {
        recv(rx) -> _value => panic!("it is empty"),
        default => {}
    }
    assert_eq!(tx.try_send(1), Ok(()));
    assert_eq!(tx.try_send(2), Err(TrySendError::Full(2)));
    select! {
        send(tx, 2) -> _sent => panic!("it is full"),
        default => {}
    }
    select! {
        recv(rx) -> value => assert_eq!(value, Ok(1)),
        default => panic!("it is not empty"),
    }
}

#[test]
fn select_() {
    let domain = Domain::new();
    let ((one, one_rx), (other, other_rx)) = (domain.bounded(1).unwrap(), domain.bounded(1).unwrap());
    let (mut sent, mut received) = (0, 0);
    for number in 0..200 {
        select! {
            send(one, number) -> _sent => sent += 1,
            send(other, number) -> _sent => sent += 1,
            run((one_rx.read(), other_rx.read())) -> _both => received += 2,
        }
    }
    assert_eq!(sent - received, one_rx.len() + other_rx.len());
}

/// What many selections leave is nothing.
#[test]
fn select2() {
    let (tx, rx) = closable();
    let (dummy, _dummy_rx) = tx.domain().bounded::<i32>(0).unwrap();
    let sender = thread::spawn(move || {
        for number in 0..5_000 {
            select! {
                send(dummy, 0) -> _sent => panic!("it is always full"),
                send(tx, number) -> sent => sent.unwrap(),
            }
        }
    });
    assert!(rx.iter().eq(0..5_000));
    sender.join().unwrap();
}

/// Which operations wait, and which return.
#[test]
fn select3() {
    let (empty_tx, empty) = queue::<i32>();
    assert!(empty.recv_timeout(Duration::from_millis(5)).is_err());
    let (full, _full_rx) = bounded(1).unwrap();
    full.send(1).unwrap();
    assert!(full.send_timeout(2, Duration::from_millis(5)).is_err());
    let (closed_tx, closed) = closable::<i32>();
    drop(closed_tx);
    select! {
        recv(closed) -> value => assert_eq!(value, Err(RecvError::Closed)),
    }
    select! {
        recv(empty) -> _value => panic!("it is empty"),
        default(Duration::from_millis(5)) => {}
    }
    drop(empty_tx);
}

#[test]
fn select4() {
    let (tx, rx) = bounded(1).unwrap();
    tx.send(42).unwrap();
    let got = select! {
        recv(rx) -> value => value.unwrap(),
        recv(rx) -> _value => panic!("the first alternative is tried first"),
    };
    assert_eq!(got, 42);
}

/// A selection between two threads that both send and receive.
#[test]
fn select6() {
    let domain = Domain::new();
    let ((a, a_rx), (b, b_rx)) = (domain.closable::<bool>(), domain.closable::<bool>());
    let waiter = thread::spawn(move || {
        select! {
            recv(a_rx) -> value => value,
            recv(b_rx) -> value => value,
        }
    });
    thread::sleep(Duration::from_millis(5));
    drop(b);
    assert_eq!(waiter.join().unwrap(), Err(RecvError::Closed));
    drop(a);
}

#[test]
fn select7() {
    type Receive = fn(&Receiver<u8, Closable>) -> u8;
    let receive: [Receive; 3] = [
        |rx| rx.recv().unwrap(),
        |rx| {
            select! {
                recv(rx) -> value => value.unwrap(),
            }
        },
        |rx| rx.iter().next().unwrap(),
    ];
    for receive in receive {
        let (tx, rx) = closable();
        let receiver = thread::spawn(move || receive(&rx));
        thread::sleep(Duration::from_millis(2));
        tx.send(7).unwrap();
        assert_eq!(receiver.join().unwrap(), 7);
    }
}

/// Primes by a chain of filters, which ends by closing from the end.
#[test]
fn sieve1() {
    let (tx, mut numbers) = bounded_closable(1).unwrap();
    let mut threads =
        vec![thread::spawn(move || while let Some(Ok(())) = (2..).map(|n| tx.send(n)).find(Result::is_err) {})];
    let mut primes = Vec::new();
    for _ in 0..20 {
        let prime: u32 = numbers.recv().unwrap();
        primes.push(prime);
        let (tx, rx) = bounded_closable(1).unwrap();
        let source = std::mem::replace(&mut numbers, rx);
        threads.push(thread::spawn(move || {
            let others = source.iter().filter(|number| number % prime != 0);
            others.map(|number| tx.send(number)).take_while(Result::is_ok).for_each(drop);
        }));
    }
    drop(numbers);
    threads.into_iter().for_each(|thread| thread.join().unwrap());
    assert_eq!(primes[..8], [2, 3, 5, 7, 11, 13, 17, 19]);
    assert_eq!(primes[19], 71);
}

#[test]
fn zerosize() {
    let (tx, rx) = closable();
    (0..1_000).for_each(|_| tx.send([0u8; 0]).unwrap());
    drop(tx);
    assert_eq!(rx.iter().count(), 1_000);
}

mod chan_test {
    use super::*;

    #[test]
    fn test_chan() {
        for bound in 1..30 {
            let (tx, rx) = bounded_closable(bound).unwrap();
            assert!(tx.is_empty() && rx.try_recv() == Err(TryRecvError::Empty));
            (0..bound).for_each(|number| tx.try_send(number).unwrap());
            assert_eq!(tx.try_send(bound), Err(TrySendError::Full(bound)));
            drop(tx);
            assert!(rx.iter().eq(0..bound));
        }
    }

    #[test]
    fn test_nonblock_recv_race() {
        for _ in 0..500 {
            let (tx, rx) = bounded_closable(1).unwrap();
            tx.send(1).unwrap();
            let receiver = thread::spawn(move || rx.try_recv());
            drop(tx);
            assert_eq!(receiver.join().unwrap(), Ok(1));
        }
    }

    /// One of two queues always has a value, so a selection with a default never takes the default.
    #[test]
    fn test_nonblock_select_race() {
        for _ in 0..500 {
            let domain = Domain::new();
            let ((one, one_rx), (other, other_rx)) = (domain.queue(), domain.queue());
            one.send(1).unwrap();
            let selector = thread::spawn(move || {
                select! {
                    recv(one_rx) -> value => value.is_ok(),
                    recv(other_rx) -> value => value.is_ok(),
                    default => false,
                }
            });
            other.send(1).unwrap();
            assert!(selector.join().unwrap());
        }
    }

    #[test]
    fn test_nonblock_select_race2() {
        for _ in 0..500 {
            let domain = Domain::new();
            let ((one, one_rx), (other, other_rx)) = (domain.queue(), domain.closable::<u8>());
            one.send(1).unwrap();
            let selector = thread::spawn(move || {
                select! {
                    recv(one_rx) -> _value => true,
                    recv(other_rx) -> _value => true,
                    default => false,
                }
            });
            drop(other);
            assert!(selector.join().unwrap());
        }
    }

    /// A thread does not meet itself: a bound of 0 is always full.
    #[test]
    fn test_self_select() {
        let (tx, rx) = bounded::<u8>(0).unwrap();
        select! {
            send(tx, 1) -> _sent => panic!("it is always full"),
            recv(rx) -> _value => panic!("it is always empty"),
            default(Duration::from_millis(5)) => {}
        }
    }

    #[test]
    fn test_select_stress() {
        const COUNT: usize = 2_000;
        let domain = Domain::new();
        let ends: Vec<_> = [1, 2, 3].iter().map(|bound| domain.bounded::<usize>(*bound).unwrap()).collect();
        thread::scope(|scope| {
            for (tx, _) in &ends {
                scope.spawn(move || (0..COUNT).for_each(|number| tx.send(number).unwrap()));
            }
            for _ in 0..2 {
                scope.spawn(|| {
                    for _ in 0..3 * COUNT / 2 {
                        select! {
                            recv(ends[0].1) -> value => value.map(drop).unwrap(),
                            recv(ends[1].1) -> value => value.map(drop).unwrap(),
                            recv(ends[2].1) -> value => value.map(drop).unwrap(),
                        }
                    }
                });
            }
        });
        assert!(ends.iter().all(|(_, rx)| rx.is_empty()));
    }

    #[test]
    fn test_chan_send_interface() {
        trait Speaks: Send {
            fn speak(&self) -> &'static str;
        }
        struct Dog;
        impl Speaks for Dog {
            fn speak(&self) -> &'static str {
                "woof"
            }
        }
        let (tx, rx) = queue::<Box<dyn Speaks>>();
        assert!(tx.send(Box::new(Dog)).is_ok());
        assert_eq!(rx.recv().unwrap().speak(), "woof");
    }

    #[test]
    fn test_pseudo_random_send() {
        const COUNT: u64 = 2_000;
        let (tx, rx) = bounded_closable(100).unwrap();
        let sender = thread::spawn(move || {
            let mut seed = 1u64;
            for _ in 0..COUNT {
                seed = seed.wrapping_mul(6_364_136_223_846_793_005).wrapping_add(1);
                select! {
                    send(tx, seed >> 63) -> sent => sent.unwrap(),
                }
            }
        });
        let ones: u64 = rx.iter().sum();
        assert!(ones > COUNT / 3 && ones < 2 * COUNT / 3);
        sender.join().unwrap();
    }

    #[test]
    fn test_multi_consumer() {
        const PRIMES: [u64; 5] = [2, 3, 7, 31, 127];
        const EACH: u64 = 1_000;
        let (tx, rx) = bounded_closable(5).unwrap();
        let (out, results) = closable();
        thread::scope(|scope| {
            for _ in 0..4 {
                let (rx, out) = (rx.clone(), out.clone());
                scope.spawn(move || {
                    for number in rx {
                        if number % 3 == 0 {
                            thread::yield_now();
                        }
                        out.send(number).unwrap();
                    }
                });
            }
            drop((rx, out));
            scope.spawn(move || (0..EACH).for_each(|_| PRIMES.iter().for_each(|prime| tx.send(*prime).unwrap())));
            assert_eq!(results.iter().sum::<u64>(), EACH * PRIMES.iter().sum::<u64>());
        });
    }

    #[test]
    fn test_select_duplicate_channel() {
        let domain = Domain::new();
        let ((a, a_rx), (b, b_rx)) = (domain.closable::<i32>(), domain.closable::<i32>());
        let waiter = thread::spawn(move || {
            select! {
                recv(a_rx) -> value => value.is_ok(),
                recv(b_rx) -> value => value.is_ok(),
                recv(b_rx) -> value => value.is_ok(),
            }
        });
        thread::sleep(Duration::from_millis(5));
        a.send(7).unwrap();
        assert!(waiter.join().unwrap());
        drop(b);
    }
}

#[test]
fn closedchan() {
    let (tx, rx) = bounded_closable(2).unwrap();
    tx.send(1).unwrap();
    tx.close();
    assert_eq!(tx.try_send(2), Err(TrySendError::Closed(2)));
    assert_eq!((rx.recv(), rx.recv(), rx.try_recv()), (Ok(1), Err(RecvError::Closed), Err(TryRecvError::Closed)));
    // To close again does nothing.
    tx.close();
    assert!(rx.is_closed());
}

#[test]
fn chancap() {
    assert_eq!(bounded::<u8>(0).unwrap().0.capacity(), Some(0));
    assert_eq!(bounded::<u8>(10).unwrap().1.capacity(), Some(10));
    assert_eq!(queue::<u8>().0.capacity(), None);
    assert!(bounded::<u8>(usize::MAX).is_err());
}
