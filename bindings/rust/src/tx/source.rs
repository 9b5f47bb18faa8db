use super::{Item, Retry, Tx};
use crate::kinds::{BroadcastKind, Kind, QueueKind};
use crate::receiver::Receiver;
use crate::subscriber::Subscriber;
use std::sync::Arc;

/// An end that an [`atomically`](crate::Domain::atomically) closure can read: a [`Receiver`] or a [`Subscriber`].
pub trait Source {
    /// What a read returns: an [`Item`] or an `Arc`, or an `Option` of it if the channel can be closed.
    type Got;

    #[doc(hidden)]
    fn read_in(&self, tx: &mut Tx<'_>) -> Result<Self::Got, Retry>;
}

impl<T: Send + 'static, K: QueueKind> Source for Receiver<T, K> {
    type Got = <K as Kind>::Read<Item<T>>;

    fn read_in(&self, tx: &mut Tx<'_>) -> Result<Self::Got, Retry> {
        Ok(K::read(tx.take(&self.chan)?.map(|held| Item { held })))
    }
}

impl<T: Send + Sync + 'static, K: BroadcastKind> Source for Subscriber<T, K> {
    type Got = <K as Kind>::Read<Arc<T>>;

    fn read_in(&self, tx: &mut Tx<'_>) -> Result<Self::Got, Retry> {
        Ok(K::read(tx.hear(&self.chan, self.reader)?))
    }
}
