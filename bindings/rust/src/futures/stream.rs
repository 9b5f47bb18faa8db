use super::RecvFuture;
use crate::error::RecvError;
use crate::steps::Reads;
use std::fmt;
use std::future::{Future, poll_fn};
use std::pin::Pin;
use std::task::{Context, Poll};

/// The values of a channel, without a thread. See [`Receiver::stream`](crate::Receiver::stream).
///
/// This crate depends on std only, so the type does not implement `futures_core::Stream`. The crate `yalwythen-stream`
/// does that by [`poll_next`](RecvStream::poll_next). It can be dropped at any time, like a [`RecvFuture`].
#[must_use = "a stream does nothing until it is polled"]
pub struct RecvStream<'a, R> {
    begin: Box<dyn Fn() -> RecvFuture<'a, R> + Send + Sync + 'a>,
    current: Option<RecvFuture<'a, R>>,
}

impl<'a, R: Reads + Unpin> RecvStream<'a, R> {
    pub(crate) fn new(begin: impl Fn() -> RecvFuture<'a, R> + Send + Sync + 'a) -> RecvStream<'a, R> {
        RecvStream { begin: Box::new(begin), current: None }
    }

    /// Polls for the next value. Returns `None` if the channel is closed and empty.
    ///
    /// # Panics
    ///
    /// If allocation fails.
    pub fn poll_next(mut self: Pin<&mut Self>, cx: &mut Context<'_>) -> Poll<Option<R::Value>> {
        let this = &mut *self;
        let current = this.current.get_or_insert_with(&this.begin);
        Pin::new(current).poll(cx).map(|received| {
            this.current = None;
            match received {
                Ok(value) => Some(value),
                Err(RecvError::Closed) => None,
                Err(RecvError::Failed(failure)) => panic!("a stream of a channel cannot go on: {failure}"),
            }
        })
    }

    /// Waits for the next value. Returns `None` if the channel is closed and empty.
    ///
    /// # Panics
    ///
    /// If allocation fails.
    pub async fn next(&mut self) -> Option<R::Value> {
        poll_fn(|cx| Pin::new(&mut *self).poll_next(cx)).await
    }
}

impl<R> fmt::Debug for RecvStream<'_, R> {
    fn fmt(&self, f: &mut fmt::Formatter<'_>) -> fmt::Result {
        f.debug_struct("RecvStream").finish_non_exhaustive()
    }
}
