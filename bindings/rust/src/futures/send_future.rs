use super::wait::Wait;
use crate::error::SendError;
use crate::kinds::Kind;
use crate::sender::Sender;
use crate::steps::{Sending, Write};
use crate::stopped::Stopped;
use std::fmt;
use std::future::Future;
use std::pin::Pin;
use std::task::{Context, Poll};

/// A send that waits without a thread. See [`Sender::send_async`](crate::Sender::send_async).
///
/// It can be dropped at any time: the value is dropped with it, and a wake that it has not used goes to another waiter.
#[must_use = "a future does nothing until it is polled"]
pub struct SendFuture<'a, T, K: Kind> {
    steps: Option<Sending<'a, T, K>>,
    wait: Wait<'a>,
}

impl<'a, T, K: Kind> SendFuture<'a, T, K> {
    pub(crate) fn new(sender: &'a Sender<T, K>, write: Write<'a, T, K>) -> SendFuture<'a, T, K> {
        SendFuture { steps: Some(Sending(write)), wait: Wait::new(&sender.chan.inner) }
    }
}

// No field is pinned.
impl<T, K: Kind> Unpin for SendFuture<'_, T, K> {}

impl<T: Send + 'static, K: Kind> Future for SendFuture<'_, T, K> {
    type Output = Result<(), SendError<T>>;

    fn poll(mut self: Pin<&mut Self>, cx: &mut Context<'_>) -> Poll<Self::Output> {
        let this = &mut *self;
        let steps = this.steps.as_mut().expect("it is not polled after its end");
        this.wait.poll(steps, cx).map(|ended| match ended {
            Ok(sent) => sent,
            Err(Stopped::Failed(failure)) => {
                let steps = this.steps.take().expect("it was polled");
                Err(SendError::Failed(steps.0.into_value(), failure))
            }
            Err(Stopped::Retry(_)) => unreachable!("it is pending then"),
        })
    }
}

impl<T, K: Kind> fmt::Debug for SendFuture<'_, T, K> {
    fn fmt(&self, f: &mut fmt::Formatter<'_>) -> fmt::Result {
        f.debug_struct("SendFuture").finish_non_exhaustive()
    }
}
