//! Values as a stream, by code that knows `futures_core` only.

use futures_core::Stream;
use std::future::{Future, poll_fn};
use std::pin::{Pin, pin};
use std::sync::Arc;
use std::task::{Context, Poll, Wake, Waker};
use std::thread::{self, Thread};
use yalwythen_stream::Values;

struct Unpark(Thread);

impl Wake for Unpark {
    fn wake(self: Arc<Self>) {
        self.0.unpark();
    }
}

fn block_on<F: Future>(future: F) -> F::Output {
    let (mut future, waker) = (pin!(future), Waker::from(Arc::new(Unpark(thread::current()))));
    loop {
        if let Poll::Ready(output) = future.as_mut().poll(&mut Context::from_waker(&waker)) {
            return output;
        }
        thread::park();
    }
}

/// All that a stream has until it ends.
fn collect<S: Stream + Unpin>(mut stream: S) -> Vec<S::Item> {
    block_on(async {
        let mut all = Vec::new();
        while let Some(value) = poll_fn(|cx| Pin::new(&mut stream).poll_next(cx)).await {
            all.push(value);
        }
        all
    })
}

#[test]
fn a_stream_of_a_queue_has_all_values_until_the_close() {
    let (tx, rx) = yalwythen::bounded_closable(3).unwrap();
    thread::spawn(move || (0..10_000).for_each(|number| tx.send(number).unwrap()));
    assert!(collect(Values::from(rx.stream())).into_iter().eq(0..10_000));
}

#[test]
fn each_value_goes_to_one_of_two_streams() {
    let (tx, rx) = yalwythen::closable();
    let readers = [rx.clone(), rx].map(|rx| thread::spawn(move || collect(Values::from(rx.stream()))));
    (0..1000).for_each(|number| tx.send(number).unwrap());
    drop(tx);
    let mut all = readers.map(|reader| reader.join().unwrap()).concat();
    all.sort_unstable();
    assert!(all.into_iter().eq(0..1000));
}

#[test]
fn each_subscriber_has_a_stream_of_all_values() {
    let (tx, first) = yalwythen::broadcast_closable();
    let second = first.clone();
    (0..100).for_each(|number| tx.send(Arc::new(number)).unwrap());
    drop(tx);
    for subscriber in [first, second] {
        let all = collect(Values::from(subscriber.stream()));
        assert!(all.into_iter().map(|value| *value).eq(0..100));
    }
}

#[test]
fn a_stream_that_is_dropped_loses_no_value() {
    let (tx, rx) = yalwythen::queue();
    let mut values = Values::from(rx.stream());
    let mut context = Context::from_waker(Waker::noop());
    assert!(Pin::new(&mut values).poll_next(&mut context).is_pending());
    tx.send(7).unwrap();
    drop(values);
    assert_eq!(rx.recv(), Ok(7));
}
