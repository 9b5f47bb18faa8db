use super::held::Held;
use std::fmt;
use std::ops::Deref;
use std::rc::Rc;

/// A value that an [`atomically`](crate::Domain::atomically) closure has peeked: it stays in its queue.
///
/// It derefs to the value. It must not leave the closure: `atomically` panics then.
pub struct Peeked<T> {
    pub(super) held: Rc<Held<T>>,
}

impl<T> Deref for Peeked<T> {
    type Target = T;

    fn deref(&self) -> &T {
        &self.held.value
    }
}

impl<T: fmt::Debug> fmt::Debug for Peeked<T> {
    fn fmt(&self, f: &mut fmt::Formatter<'_>) -> fmt::Result {
        f.debug_tuple("Peeked").field(&self.held.value).finish()
    }
}
