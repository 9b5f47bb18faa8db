use super::arm::Arm;
use crate::attempt::Attempt;
use crate::shared::Shared;
use crate::steps::{Steps, Trial};
use crate::stopped::Stopped;

/// Steps, and what is done with their replies.
pub struct Alternative<S: Steps, F> {
    steps: S,
    then: F,
    replies: Option<S::Replies>,
}

impl<S: Steps, F> Alternative<S, F> {
    pub fn new(steps: S, then: F) -> Alternative<S, F> {
        Alternative { steps, then, replies: None }
    }
}

impl<R, S: Steps, F: FnOnce(S::Replies) -> R> Arm<R> for Alternative<S, F> {
    fn attempt(&mut self, shared: &mut Shared) -> Result<(), Stopped> {
        self.replies = Some(Trial(&mut self.steps).attempt(shared)?);
        Ok(())
    }

    fn finish(self: Box<Self>) -> R {
        (self.then)(self.replies.expect("the steps committed"))
    }
}
