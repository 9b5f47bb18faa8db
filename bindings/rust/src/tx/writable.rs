use super::{Item, Retry, Tx};
use crate::chan::Chan;
use crate::kinds::{Kind, QueueKind};

/// What an [`atomically`](crate::Domain::atomically) closure can write to a channel of `T`: a `T`, or, to a queue, an
/// [`Item`] that it has read.
pub trait Writable<T, K>: Sized {
    /// Writes it. `Err` returns it if the channel is closed.
    #[doc(hidden)]
    fn write_in(self, tx: &mut Tx<'_>, chan: &Chan<T, K>) -> Result<Result<(), Self>, Retry>;
}

impl<T: Send + 'static, K: Kind> Writable<T, K> for T {
    fn write_in(self, tx: &mut Tx<'_>, chan: &Chan<T, K>) -> Result<Result<(), T>, Retry> {
        tx.write_new(chan, self)
    }
}

impl<T: Send + 'static, K: QueueKind> Writable<T, K> for Item<T> {
    fn write_in(self, tx: &mut Tx<'_>, chan: &Chan<T, K>) -> Result<Result<(), Item<T>>, Retry> {
        tx.write_on(chan, self)
    }
}
