use crate::inner::Inner;
use crate::steps::{Steps, Trial};
use crate::stopped::Stopped;
use crate::ticket::Ticket;
use std::sync::Arc;
use std::task::{Context, Poll};

/// What a future waits with.
pub struct Wait<'a> {
    inner: &'a Arc<Inner>,
    ticket: Ticket<'a>,
}

impl<'a> Wait<'a> {
    pub fn new(inner: &'a Arc<Inner>) -> Wait<'a> {
        Wait { inner, ticket: Ticket::new(inner) }
    }

    pub fn poll<S: Steps>(&mut self, steps: &mut S, cx: &mut Context<'_>) -> Poll<Result<S::Replies, Stopped>> {
        self.inner.poll(&mut Trial(steps), &mut self.ticket, cx.waker())
    }
}
