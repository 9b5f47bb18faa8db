use super::wait::Wait;
use crate::error::RecvError;
use crate::inner::Inner;
use crate::steps::{Reads, Recv};
use crate::stopped::Stopped;
use std::fmt;
use std::future::Future;
use std::pin::Pin;
use std::sync::Arc;
use std::task::{Context, Poll};

/// A receive that waits without a thread. See [`Receiver::recv_async`](crate::Receiver::recv_async).
///
/// It can be dropped at any time: no value is lost, and a wake that it has not used goes to another waiter.
#[must_use = "a future does nothing until it is polled"]
pub struct RecvFuture<'a, R> {
    steps: Recv<R>,
    wait: Wait<'a>,
}

impl<'a, R> RecvFuture<'a, R> {
    pub(crate) fn new(inner: &'a Arc<Inner>, read: R) -> RecvFuture<'a, R> {
        RecvFuture { steps: Recv(read), wait: Wait::new(inner) }
    }
}

impl<R: Reads + Unpin> Future for RecvFuture<'_, R> {
    type Output = Result<R::Value, RecvError>;

    fn poll(mut self: Pin<&mut Self>, cx: &mut Context<'_>) -> Poll<Self::Output> {
        let this = &mut *self;
        this.wait.poll(&mut this.steps, cx).map(|ended| match ended {
            Ok(received) => received,
            Err(Stopped::Failed(failure)) => Err(RecvError::Failed(failure)),
            Err(Stopped::Retry(_)) => unreachable!("it is pending then"),
        })
    }
}

impl<R> fmt::Debug for RecvFuture<'_, R> {
    fn fmt(&self, f: &mut fmt::Formatter<'_>) -> fmt::Result {
        f.debug_struct("RecvFuture").finish_non_exhaustive()
    }
}
