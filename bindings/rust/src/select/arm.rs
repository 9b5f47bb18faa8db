use crate::shared::Shared;
use crate::stopped::Stopped;

/// An alternative, whatever its steps.
pub trait Arm<R> {
    /// Tries the steps, and keeps their replies.
    fn attempt(&mut self, shared: &mut Shared) -> Result<(), Stopped>;

    /// Does what is done with the replies.
    fn finish(self: Box<Self>) -> R;
}
