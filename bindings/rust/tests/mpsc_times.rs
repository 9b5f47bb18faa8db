//! Many senders, one receiver, with timeouts, iterators and selections: the second half of the scenarios of `mpsc.rs`.

use std::thread;
use std::time::{Duration, Instant};
use yalwythen::{RecvTimeoutError, TryRecvError, bounded, closable, select};

const SHORT: Duration = Duration::from_millis(10);

#[test]
fn oneshot_single_thread_recv_timeout() {
    let (tx, rx) = closable();
    tx.send(()).unwrap();
    assert_eq!(rx.recv_timeout(SHORT), Ok(()));
    assert_eq!(rx.recv_timeout(SHORT), Err(RecvTimeoutError::Timeout));
    tx.send(()).unwrap();
    assert_eq!(rx.recv_timeout(SHORT), Ok(()));
}

#[test]
fn stress_recv_timeout_two_threads() {
    const COUNT: usize = 40;
    let (tx, rx) = closable();
    let sender = thread::spawn(move || {
        for number in 0..COUNT {
            if number % 2 == 0 {
                thread::sleep(SHORT);
            }
            tx.send(1usize).unwrap();
        }
    });
    let mut count = 0;
    loop {
        match rx.recv_timeout(SHORT / 2) {
            Ok(number) => count += number,
            Err(RecvTimeoutError::Timeout) => {}
            Err(_) => break,
        }
    }
    assert_eq!(count, COUNT);
    sender.join().unwrap();
}

#[test]
fn recv_timeout_upgrade() {
    let (tx, rx) = closable::<()>();
    let _other = tx.clone();
    let began = Instant::now();
    assert_eq!(rx.recv_timeout(SHORT), Err(RecvTimeoutError::Timeout));
    assert!(began.elapsed() >= SHORT);
}

#[test]
fn stress_recv_timeout_shared() {
    const COUNT: usize = 40;
    let (tx, rx) = closable();
    for number in 0..COUNT {
        let tx = tx.clone();
        thread::spawn(move || {
            thread::sleep(SHORT * (number as u32 % 5));
            tx.send(1usize).unwrap();
        });
    }
    drop(tx);
    let mut count = 0;
    loop {
        match rx.recv_timeout(SHORT) {
            Ok(number) => count += number,
            Err(RecvTimeoutError::Timeout) => {}
            Err(_) => break,
        }
    }
    assert_eq!(count, COUNT);
}

#[test]
fn very_long_recv_timeout_wont_panic() {
    let (tx, rx) = closable::<()>();
    let receiver = thread::spawn(move || rx.recv_timeout(Duration::from_secs(u64::MAX)));
    thread::sleep(SHORT);
    tx.send(()).unwrap();
    assert_eq!(receiver.join().unwrap(), Ok(()));
}

#[test]
fn recv_a_lot() {
    let (tx, rx) = closable();
    for _ in 0..10_000 {
        tx.send(()).unwrap();
        rx.recv().unwrap();
    }
}

#[test]
fn shared_recv_timeout() {
    const THREADS: usize = 5;
    let (tx, rx) = closable();
    for _ in 0..THREADS {
        let tx = tx.clone();
        thread::spawn(move || tx.send(()).unwrap());
    }
    (0..THREADS).for_each(|_| rx.recv().unwrap());
    assert_eq!(rx.recv_timeout(SHORT), Err(RecvTimeoutError::Timeout));
    tx.send(()).unwrap();
    assert_eq!(rx.recv_timeout(SHORT), Ok(()));
}

#[test]
fn shared_chan_stress() {
    const THREADS: usize = 50;
    let (tx, rx) = closable();
    for _ in 0..THREADS {
        let tx = tx.clone();
        thread::spawn(move || tx.send(()).unwrap());
    }
    (0..THREADS).for_each(|_| rx.recv().unwrap());
}

#[test]
fn test_nested_recv_iter() {
    let (tx, rx) = closable::<i32>();
    let (total_tx, total_rx) = closable();
    let adder = thread::spawn(move || total_tx.send(rx.iter().sum::<i32>()).unwrap());
    [3, 1, 2].iter().for_each(|number| tx.send(*number).unwrap());
    drop(tx);
    assert_eq!(total_rx.recv(), Ok(6));
    adder.join().unwrap();
}

#[test]
fn test_recv_iter_break() {
    let (tx, rx) = closable::<i32>();
    let (count_tx, count_rx) = closable();
    let counter = thread::spawn(move || {
        let mut count = 0;
        for number in &rx {
            if count >= 3 {
                break;
            }
            count += number;
        }
        count_tx.send(count).unwrap();
    });
    (0..3).for_each(|_| tx.send(2).unwrap());
    let _ = tx.send(2);
    drop(tx);
    assert_eq!(count_rx.recv(), Ok(4));
    counter.join().unwrap();
}

#[test]
fn test_recv_try_iter() {
    let (ask, asked) = closable();
    let (tell, heard) = closable();
    let adder = thread::spawn(move || {
        let mut count = 0;
        loop {
            for number in heard.try_iter() {
                count += number;
                if count == 6 {
                    return count;
                }
            }
            ask.send(()).unwrap();
        }
    });
    asked.iter().take_while(|()| tell.send(2).is_ok()).for_each(drop);
    assert_eq!(adder.join().unwrap(), 6);
}

#[test]
fn test_recv_into_iter_owned() {
    let mut iter = {
        let (tx, rx) = closable::<i32>();
        (1..3).for_each(|number| tx.send(number).unwrap());
        rx.into_iter()
    };
    assert_eq!((iter.next(), iter.next(), iter.next()), (Some(1), Some(2), None));
}

#[test]
fn test_recv_into_iter_borrowed() {
    let (tx, rx) = closable::<i32>();
    (1..3).for_each(|number| tx.send(number).unwrap());
    drop(tx);
    let mut iter = (&rx).into_iter();
    assert_eq!((iter.next(), iter.next(), iter.next()), (Some(1), Some(2), None));
}

#[test]
fn try_recv_states() {
    let (tx, rx) = closable::<i32>();
    let (go, goes) = closable();
    let (did, done) = closable();
    let sender = thread::spawn(move || {
        goes.recv().unwrap();
        tx.send(1).unwrap();
        did.send(()).unwrap();
        goes.recv().unwrap();
        drop(tx);
        did.send(()).unwrap();
    });
    assert_eq!(rx.try_recv(), Err(TryRecvError::Empty));
    go.send(()).unwrap();
    done.recv().unwrap();
    assert_eq!(rx.try_recv(), Ok(1));
    assert_eq!(rx.try_recv(), Err(TryRecvError::Empty));
    go.send(()).unwrap();
    done.recv().unwrap();
    assert_eq!(rx.try_recv(), Err(TryRecvError::Closed));
    sender.join().unwrap();
}

#[test]
fn destroy_upgraded_shared_port_when_sender_still_active() {
    let (tx, rx) = closable();
    let (did, done) = closable();
    let receiver = thread::spawn(move || {
        rx.recv().unwrap();
        drop(rx);
        did.send(()).unwrap();
    });
    tx.send(()).unwrap();
    done.recv().unwrap();
    let other = tx.clone();
    assert!(tx.send(()).is_err() && other.send(()).is_err());
    receiver.join().unwrap();
}

#[test]
fn issue_32114() {
    let (tx, rx) = closable();
    drop(rx);
    let _ = tx.send(123);
    assert_eq!(tx.send(123).unwrap_err().into_inner(), 123);
}

#[test]
fn sync_send_blocks_until_there_is_space() {
    let (tx, rx) = bounded(1).unwrap();
    let sender = thread::spawn(move || (0..100).for_each(|number| tx.send(number).unwrap()));
    for number in 0..100 {
        assert_eq!(rx.recv(), Ok(number));
        assert!(rx.len() <= 1);
    }
    sender.join().unwrap();
}

#[test]
fn select_smoke_stress() {
    const COUNT: usize = 2_000;
    let domain = yalwythen::Domain::new();
    let ((one, one_rx), (other, other_rx)) = (domain.closable::<usize>(), domain.closable::<usize>());
    let sender = thread::spawn(move || {
        for number in 0..COUNT {
            if number % 2 == 0 { one.send(number).unwrap() } else { other.send(number).unwrap() }
        }
        (one, other)
    });
    let (mut evens, mut odds) = (Vec::new(), Vec::new());
    for _ in 0..COUNT {
        select! {
            recv(one_rx) -> number => evens.push(number.unwrap()),
            recv(other_rx) -> number => odds.push(number.unwrap()),
        }
    }
    assert!(evens.into_iter().eq((0..COUNT).step_by(2)) && odds.into_iter().eq((1..COUNT).step_by(2)));
    sender.join().unwrap();
}
