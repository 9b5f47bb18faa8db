//! The values of a channel of the crate `yalwythen` as a `futures_core::Stream`, for the combinators and loops of other
//! crates. It is a crate of its own, so that `yalwythen` depends on std only.
//!
//! ```
//! use futures_core::Stream;
//! use std::pin::Pin;
//! use std::task::{Context, Poll, Waker};
//! use yalwythen_stream::Values;
//!
//! let (tx, rx) = yalwythen::closable();
//! let mut values = Values::from(rx.stream());
//! let mut context = Context::from_waker(Waker::noop());
//! tx.send(7).unwrap();
//! assert_eq!(Pin::new(&mut values).poll_next(&mut context), Poll::Ready(Some(7)));
//! drop(tx);
//! assert_eq!(Pin::new(&mut values).poll_next(&mut context), Poll::Ready(None));
//! ```
#![deny(missing_docs)]
#![forbid(unsafe_code)]

use futures_core::Stream;
use std::pin::Pin;
use std::sync::Arc;
use std::task::{Context, Poll};
use yalwythen::kinds::{BroadcastKind, QueueKind};
use yalwythen::{Next, Read, RecvStream};

/// The values of a receiver or a subscriber. It is made from what their method `stream` returns.
///
/// It ends when the channel is closed and all is read. It can be dropped at any time: no value is lost, and a wake that
/// it has not used goes to another waiter. `poll_next` panics if allocation fails.
#[derive(Debug)]
#[must_use = "a stream does nothing until it is polled"]
pub struct Values<'a, R>(RecvStream<'a, R>);

impl<'a, R> From<RecvStream<'a, R>> for Values<'a, R> {
    fn from(stream: RecvStream<'a, R>) -> Values<'a, R> {
        Values(stream)
    }
}

impl<'a, T: Send + 'static, K: QueueKind> Stream for Values<'a, Read<'a, T, K>> {
    type Item = T;

    fn poll_next(mut self: Pin<&mut Self>, cx: &mut Context<'_>) -> Poll<Option<T>> {
        Pin::new(&mut self.0).poll_next(cx)
    }
}

impl<'a, T: Send + Sync + 'static, K: BroadcastKind> Stream for Values<'a, Next<'a, T, K>> {
    type Item = Arc<T>;

    fn poll_next(mut self: Pin<&mut Self>, cx: &mut Context<'_>) -> Poll<Option<Arc<T>>> {
        Pin::new(&mut self.0).poll_next(cx)
    }
}
