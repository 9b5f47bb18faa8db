use super::arm::Arm;
use crate::abi::Order;
use crate::attempt::Attempt;
use crate::error::Cause;
use crate::shared::Shared;
use crate::stopped::Stopped;
use crate::waiting::Wishes;

/// Alternatives that are tried in order.
pub struct Arms<'s, 'a, R> {
    arms: &'s mut Vec<Box<dyn Arm<R> + 'a>>,
    /// The steps of all alternatives in the last attempt.
    tried: Vec<Order>,
}

impl<'s, 'a, R> Arms<'s, 'a, R> {
    pub fn new(arms: &'s mut Vec<Box<dyn Arm<R> + 'a>>) -> Arms<'s, 'a, R> {
        Arms { arms, tried: Vec::new() }
    }
}

impl<R> Attempt for Arms<'_, '_, R> {
    type Out = usize;

    fn attempt(&mut self, shared: &mut Shared) -> Result<usize, Stopped> {
        self.tried.clear();
        let mut last = Stopped::Retry(Cause::Empty);
        for (number, arm) in self.arms.iter_mut().enumerate() {
            match arm.attempt(shared) {
                Ok(()) => return Ok(number),
                Err(Stopped::Failed(failure)) => return Err(Stopped::Failed(failure)),
                Err(retry) => last = retry,
            }
            self.tried.extend_from_slice(&shared.orders);
        }
        Err(last)
    }

    fn wishes(&self, shared: &Shared) -> Wishes {
        shared.waiters.wishes(&self.tried)
    }
}
