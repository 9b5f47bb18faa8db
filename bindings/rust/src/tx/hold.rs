use crate::shared::Shared;
use std::any::Any;
use std::cell::Cell;
use std::rc::Rc;

/// A held value, whatever its type.
pub trait Hold {
    /// The number of entries of the journal that have it.
    fn entries(&self) -> &Cell<usize>;

    /// Whether the transaction has taken it out of the channels.
    fn is_taken(&self) -> &Cell<bool>;

    fn into_any(self: Rc<Self>) -> Rc<dyn Any>;

    /// Puts the value back under its key. Returns whether it could: an `Item` that left the closure keeps it.
    fn restore(self: Rc<Self>, shared: &mut Shared) -> bool;

    /// Frees the key.
    fn release(&self, shared: &mut Shared);
}
