use super::Steps;
use crate::attempt::Attempt;
use crate::shared::Shared;
use crate::stopped::Stopped;
use crate::waiting::Wishes;

/// Steps that are tried until they need not wait.
pub struct Trial<'s, S>(pub &'s mut S);

impl<S: Steps> Attempt for Trial<'_, S> {
    type Out = S::Replies;

    fn attempt(&mut self, shared: &mut Shared) -> Result<S::Replies, Stopped> {
        shared.orders.clear();
        self.0.put(shared);
        match shared.transact() {
            Ok(()) => Ok(self.0.committed(shared)),
            Err(stopped) => {
                self.0.back(shared);
                Err(stopped)
            }
        }
    }

    fn wishes(&self, shared: &Shared) -> Wishes {
        shared.wishes()
    }
}
