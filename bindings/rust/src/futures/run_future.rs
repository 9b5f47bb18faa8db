use super::wait::Wait;
use crate::domain::Domain;
use crate::error::RunError;
use crate::steps::Steps;
use crate::stopped::Stopped;
use std::fmt;
use std::future::Future;
use std::pin::Pin;
use std::task::{Context, Poll};

/// A transaction that waits without a thread. See [`Domain::run_async`](crate::Domain::run_async).
///
/// It can be dropped at any time: values that it has not written are dropped with it, and a wake that it has not used
/// goes to another waiter.
#[must_use = "a future does nothing until it is polled"]
pub struct RunFuture<'a, S> {
    domain: &'a Domain,
    steps: S,
    wait: Wait<'a>,
}

impl<'a, S> RunFuture<'a, S> {
    pub(crate) fn new(domain: &'a Domain, steps: S) -> RunFuture<'a, S> {
        RunFuture { domain, steps, wait: Wait::new(&domain.inner) }
    }
}

// No field is pinned.
impl<S> Unpin for RunFuture<'_, S> {}

impl<S: Steps> Future for RunFuture<'_, S> {
    type Output = Result<S::Replies, RunError>;

    fn poll(mut self: Pin<&mut Self>, cx: &mut Context<'_>) -> Poll<Self::Output> {
        let this = &mut *self;
        if !this.steps.is_of(&this.domain.inner) {
            return Poll::Ready(Err(RunError::OtherDomain));
        }
        this.wait.poll(&mut this.steps, cx).map_err(|stopped| match stopped {
            Stopped::Failed(failure) => RunError::Failed(failure),
            Stopped::Retry(_) => unreachable!("it is pending then"),
        })
    }
}

impl<S> fmt::Debug for RunFuture<'_, S> {
    fn fmt(&self, f: &mut fmt::Formatter<'_>) -> fmt::Result {
        f.debug_struct("RunFuture").finish_non_exhaustive()
    }
}
