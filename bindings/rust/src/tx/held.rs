use super::hold::Hold;
use crate::shared::Shared;
use crate::store::Slot;
use std::any::Any;
use std::cell::Cell;
use std::rc::Rc;

/// A value that an open transaction has read or peeked.
#[derive(Debug)]
pub struct Held<T> {
    pub value: T,
    /// The number of the store of its type.
    pub store: usize,
    /// Its key, which is what the library knows of it.
    pub key: u64,
    /// The number of the attempt that holds it.
    pub attempt: u64,
    /// The number of entries of the journal that have it.
    pub entries: Cell<usize>,
    /// Whether the transaction has taken it out of the channels.
    pub is_taken: Cell<bool>,
}

impl<T: 'static> Hold for Held<T> {
    fn entries(&self) -> &Cell<usize> {
        &self.entries
    }

    fn is_taken(&self) -> &Cell<bool> {
        &self.is_taken
    }

    fn into_any(self: Rc<Self>) -> Rc<dyn Any> {
        self
    }

    fn restore(self: Rc<Self>, shared: &mut Shared) -> bool {
        let (store, key) = (self.store, self.key);
        let (slot, is_restored) = match Rc::try_unwrap(self) {
            Ok(held) => (Slot::Value(held.value), true),
            Err(_) => (Slot::Lost, false),
        };
        shared.stores.slots::<T>(store).replace(key, slot);
        is_restored
    }

    fn release(&self, shared: &mut Shared) {
        shared.stores.slots::<T>(self.store).free(self.key);
    }
}
