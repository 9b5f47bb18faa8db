//! The end of the last sender.

use crate::chan::Chan;
use crate::kinds::Kind;

/// What the senders of a channel share. It is dropped with the last one.
pub struct LastSender<T, K: Kind>(pub Chan<T, K>);

impl<T, K: Kind> Drop for LastSender<T, K> {
    fn drop(&mut self) {
        if K::CLOSES {
            self.0.close_soon();
        }
    }
}
