use crate::inner::Inner;
use crate::kinds::QueueKind;
use crate::receiver::Receiver;
use crate::sender::Sender;
use std::sync::Arc;

/// An end of a queue: a [`Sender`] or a [`Receiver`].
pub trait End {
    /// The domain and the number of its channel.
    #[doc(hidden)]
    fn place(&self) -> (&Arc<Inner>, u16);
}

impl<T, K: QueueKind> End for Sender<T, K> {
    fn place(&self) -> (&Arc<Inner>, u16) {
        (&self.chan.inner, self.chan.number)
    }
}

impl<T, K: QueueKind> End for Receiver<T, K> {
    fn place(&self) -> (&Arc<Inner>, u16) {
        (&self.chan.inner, self.chan.number)
    }
}
