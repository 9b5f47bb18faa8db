//! Futures and streams, run by a hand-written executor.
#![cfg(feature = "async")]

use std::future::Future;
use std::pin::{Pin, pin};
use std::sync::Arc;
use std::sync::atomic::{AtomicU64, Ordering::SeqCst};
use std::task::{Context, Poll, Wake, Waker};
use std::thread::{self, Thread};
use std::time::Duration;
use yalwythen::{Domain, RecvError, RunError};

struct Unparker(Thread);

impl Wake for Unparker {
    fn wake(self: Arc<Self>) {
        self.0.unpark();
    }
}

fn block_on<F: Future>(future: F) -> F::Output {
    let mut future = pin!(future);
    let waker = Waker::from(Arc::new(Unparker(thread::current())));
    loop {
        if let Poll::Ready(output) = future.as_mut().poll(&mut Context::from_waker(&waker)) {
            return output;
        }
        thread::park();
    }
}

#[derive(Default)]
struct Counting(AtomicU64);

impl Wake for Counting {
    fn wake(self: Arc<Self>) {
        self.0.fetch_add(1, SeqCst);
    }
}

impl Counting {
    fn poll<F: Future + Unpin>(self: &Arc<Self>, future: &mut F) -> Poll<F::Output> {
        Pin::new(future).poll(&mut Context::from_waker(&Waker::from(Arc::clone(self))))
    }

    fn count(&self) -> u64 {
        self.0.load(SeqCst)
    }
}

#[test]
fn a_task_waits_without_a_thread() {
    let (tx, rx) = yalwythen::closable::<u64>();
    let reader = thread::spawn(move || {
        block_on(async {
            let mut sum = 0;
            while let Ok(number) = rx.recv_async().await {
                sum += number;
            }
            sum
        })
    });
    for number in 0..5_000 {
        tx.send(number).unwrap();
        if number % 1000 == 0 {
            thread::sleep(Duration::from_millis(1));
        }
    }
    drop(tx);
    assert_eq!(reader.join().unwrap(), 4_999 * 5_000 / 2);
}

#[test]
fn a_send_waits_for_space() {
    let (tx, rx) = yalwythen::bounded_closable::<String>(1).unwrap();
    let writer = thread::spawn(move || {
        block_on(async {
            for number in 0..1_000 {
                tx.send_async(number.to_string()).await.unwrap();
            }
        })
    });
    assert!(rx.iter().eq((0..1_000).map(|number| number.to_string())));
    writer.join().unwrap();
}

#[test]
fn a_send_to_a_closed_channel_gives_its_value_back() {
    let (tx, rx) = yalwythen::bounded_closable::<String>(1).unwrap();
    tx.send("a".into()).unwrap();
    let waker = Arc::new(Counting::default());
    let mut send = tx.send_async("b".into());
    assert!(waker.poll(&mut send).is_pending());
    drop(rx);
    assert_eq!(waker.count(), 1);
    let Poll::Ready(Err(error)) = waker.poll(&mut send) else { panic!("the queue is closed") };
    assert_eq!(error.into_inner(), "b");
}

#[test]
fn futures_cross_threads() {
    fn crosses<T: Send>(_: &T) {}
    let ((tx, rx), (_cast, subscriber)) = (yalwythen::queue::<std::cell::Cell<u8>>(), yalwythen::broadcast::<u8>());
    let domain = rx.domain();
    crosses(&tx.send_async(std::cell::Cell::new(1)));
    crosses(&rx.recv_async());
    crosses(&subscriber.recv_async());
    crosses(&rx.stream());
    crosses(&domain.run_async((rx.read(), tx.write(std::cell::Cell::new(1)))));
}

#[test]
fn streams_end() {
    let (tx, rx) = yalwythen::closable();
    let (cast, subscriber) = yalwythen::broadcast_closable();
    (0..10).for_each(|number| tx.send(number).unwrap());
    (0..10).for_each(|number| cast.send(Arc::new(number)).unwrap());
    drop((tx, cast));
    let sum = block_on(async {
        let (mut numbers, mut shared, mut sum) = (rx.stream(), subscriber.stream(), 0);
        while let Some(number) = numbers.next().await {
            sum += number + *shared.next().await.unwrap();
        }
        assert_eq!(shared.next().await, None);
        sum
    });
    assert_eq!(sum, 90);
    assert_eq!(block_on(rx.recv_async()), Err(RecvError::Closed));
    assert_eq!(block_on(subscriber.recv_async()), Err(RecvError::Closed));
}

#[test]
fn a_transaction_waits_without_a_thread() {
    let domain = Domain::new();
    let ((a, a_rx), (b, b_rx)) = (domain.queue::<u8>(), domain.queue::<u8>());
    let waker = Arc::new(Counting::default());
    let mut both = domain.run_async((a_rx.read(), b_rx.read()));
    assert!(waker.poll(&mut both).is_pending());
    a.send(1).unwrap();
    assert!(waker.count() == 1 && waker.poll(&mut both).is_pending());
    b.send(2).unwrap();
    assert_eq!(waker.poll(&mut both), Poll::Ready(Ok((1, 2))));
    let other = Domain::new();
    assert_eq!(block_on(other.run_async(a_rx.read())), Err(RunError::OtherDomain));
}

#[test]
fn a_future_that_is_dropped_hands_its_wake_on() {
    let (tx, rx) = yalwythen::queue::<u64>();
    let wakers = [Arc::new(Counting::default()), Arc::new(Counting::default())];
    let (mut first, mut second) = (rx.recv_async(), rx.recv_async());
    assert!(wakers[0].poll(&mut first).is_pending() && wakers[1].poll(&mut second).is_pending());
    tx.send(7).unwrap();
    assert_eq!(wakers.each_ref().map(|waker| waker.count()), [1, 0]);
    drop(first);
    assert_eq!(wakers.each_ref().map(|waker| waker.count()), [1, 1]);
    assert_eq!(wakers[1].poll(&mut second), Poll::Ready(Ok(7)));
}

#[test]
fn a_future_that_is_dropped_before_its_wake_takes_none() {
    let (tx, rx) = yalwythen::queue::<u64>();
    let wakers = [Arc::new(Counting::default()), Arc::new(Counting::default())];
    let (mut first, mut second) = (rx.recv_async(), rx.recv_async());
    assert!(wakers[0].poll(&mut first).is_pending() && wakers[1].poll(&mut second).is_pending());
    drop(first);
    tx.send(7).unwrap();
    assert_eq!(wakers.each_ref().map(|waker| waker.count()), [0, 1]);
    assert_eq!(wakers[1].poll(&mut second), Poll::Ready(Ok(7)));
}

#[test]
fn the_last_waker_is_called() {
    let (tx, rx) = yalwythen::queue::<u64>();
    let wakers = [Arc::new(Counting::default()), Arc::new(Counting::default())];
    let mut receive = rx.recv_async();
    assert!(wakers[0].poll(&mut receive).is_pending() && wakers[1].poll(&mut receive).is_pending());
    tx.send(7).unwrap();
    assert_eq!(wakers.each_ref().map(|waker| waker.count()), [0, 1]);
}

/// Receives until the end, and drops each third future after a short wait, woken or not.
fn receive_with_cancels(rx: &yalwythen::Receiver<u64, yalwythen::kinds::Closable>, mut turn: u64) -> u64 {
    let mut count = 0;
    loop {
        turn += 1;
        if turn % 3 > 0 {
            match block_on(rx.recv_async()) {
                Ok(_) => count += 1,
                Err(_) => return count,
            }
            continue;
        }
        let mut future = rx.recv_async();
        let waker = Waker::from(Arc::new(Unparker(thread::current())));
        match Pin::new(&mut future).poll(&mut Context::from_waker(&waker)) {
            Poll::Ready(Ok(_)) => count += 1,
            Poll::Ready(Err(_)) => return count,
            Poll::Pending => thread::park_timeout(Duration::from_micros(50)),
        }
    }
}

#[test]
fn cancelled_tasks_lose_nothing() {
    let (tx, rx) = yalwythen::closable::<u64>();
    let readers: Vec<_> = (0..3)
        .map(|turn| {
            let rx = rx.clone();
            thread::spawn(move || receive_with_cancels(&rx, turn))
        })
        .collect();
    for number in 0..10_000 {
        tx.send(number).unwrap();
        if number % 64 == 0 {
            thread::yield_now();
        }
    }
    drop(tx);
    assert_eq!(readers.into_iter().map(|reader| reader.join().unwrap()).sum::<u64>(), 10_000);
}
