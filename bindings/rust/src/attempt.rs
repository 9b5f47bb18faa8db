//! What is tried under the lock of a domain.

use crate::shared::Shared;
use crate::stopped::Stopped;
use crate::waiting::Wishes;

/// Something that is tried under the lock until it need not wait.
pub trait Attempt {
    /// What it returns if it commits.
    type Out;

    /// Tries it once.
    fn attempt(&mut self, shared: &mut Shared) -> Result<Self::Out, Stopped>;

    /// What it waits for, right after an attempt that must wait.
    fn wishes(&self, shared: &Shared) -> Wishes;
}
