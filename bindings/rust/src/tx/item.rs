use super::held::Held;
use std::fmt;
use std::ops::Deref;
use std::rc::Rc;

/// A value that an [`atomically`](crate::Domain::atomically) closure has read from a queue.
///
/// It derefs to the value, which cannot be changed in place: write a new value instead. The closure may write the item
/// to another queue ([`Tx::write`](crate::Tx::write)) or return it: `atomically` then returns the value itself. If the
/// closure is rolled back, the value is in its queue again, so no value is cloned. An item that is neither written nor
/// returned is dropped at the commit.
///
/// An item must not leave the closure in another way, as in a captured variable: if the closure is rolled back then,
/// `atomically` panics.
#[must_use = "an item that is dropped is lost at the commit"]
pub struct Item<T> {
    pub(super) held: Rc<Held<T>>,
}

impl<T> Deref for Item<T> {
    type Target = T;

    fn deref(&self) -> &T {
        &self.held.value
    }
}

impl<T: fmt::Debug> fmt::Debug for Item<T> {
    fn fmt(&self, f: &mut fmt::Formatter<'_>) -> fmt::Result {
        f.debug_tuple("Item").field(&self.held.value).finish()
    }
}
