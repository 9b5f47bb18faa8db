use super::Step;
use crate::abi::Order;
use crate::attempt::Attempt;
use crate::shared::Shared;
use crate::stopped::Stopped;
use crate::waiting::Wishes;

/// A step by itself that is tried until it need not wait.
pub struct Single<S> {
    pub step: S,
    /// Its order in the last attempt.
    order: Option<Order>,
}

impl<S: Step> Single<S> {
    #[inline]
    pub fn new(step: S) -> Single<S> {
        Single { step, order: None }
    }
}

impl<S: Step> Attempt for Single<S> {
    type Out = S::Reply;

    #[inline]
    fn attempt(&mut self, shared: &mut Shared) -> Result<S::Reply, Stopped> {
        let order = self.step.order(shared);
        match shared.run_one(order) {
            Ok(said) => Ok(self.step.reply(shared, said)),
            Err(stopped) => {
                self.order = Some(order);
                self.step.undo(shared);
                Err(stopped)
            }
        }
    }

    fn wishes(&self, shared: &Shared) -> Wishes {
        shared.waiters.wishes(self.order.as_slice())
    }
}
