use super::Step;
use crate::abi::Said;
use crate::shared::Shared;

/// A step that reads one value.
pub trait Reads: Step {
    /// The value.
    type Value;

    /// The value that was read, or `None` at the end of a closed channel.
    fn value(&mut self, shared: &mut Shared, said: Said) -> Option<Self::Value>;
}
