use super::{Feed, Slots};
use std::any::{Any, TypeId};
use std::collections::HashMap;

/// All values of a domain. An end knows the number of its store.
#[derive(Default)]
pub struct Stores {
    stores: Vec<Box<dyn Any + Send>>,
    by_type: HashMap<TypeId, usize>,
}

impl Stores {
    /// The number of the store for queues of this type, which is made if it is the first of them.
    pub fn slots_of<T: Send + 'static>(&mut self) -> usize {
        let number = self.stores.len();
        let found = *self.by_type.entry(TypeId::of::<T>()).or_insert(number);
        if found == number {
            self.stores.push(Box::new(Slots::<T>::default()));
        }
        found
    }

    /// The number of a new store for a broadcast.
    pub fn new_feed<T: Send + 'static>(&mut self) -> usize {
        self.stores.push(Box::new(Feed::<T>::default()));
        self.stores.len() - 1
    }

    #[inline]
    pub fn slots<T: 'static>(&mut self, store: usize) -> &mut Slots<T> {
        self.stores[store].downcast_mut().expect("a store of this type")
    }

    #[inline]
    pub fn feed<T: 'static>(&mut self, store: usize) -> &mut Feed<T> {
        self.stores[store].downcast_mut().expect("a feed of this type")
    }
}
