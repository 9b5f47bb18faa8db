//! The end of the last receiver.

use crate::chan::Chan;
use crate::kinds::QueueKind;

/// What the receivers of a queue share. It is dropped with the last one.
pub struct LastReceiver<T, K: QueueKind> {
    pub chan: Chan<T, K>,
    /// Closes the queue and drops what is left. `T` has its bounds only when a receiver is made.
    pub discard: fn(&Chan<T, K>),
}

impl<T, K: QueueKind> Drop for LastReceiver<T, K> {
    fn drop(&mut self) {
        if K::CLOSES {
            (self.discard)(&self.chan);
        }
    }
}
