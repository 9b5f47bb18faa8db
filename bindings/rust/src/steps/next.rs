use super::{Reads, Step};
use crate::abi::{Order, Said, op, reply};
use crate::inner::Inner;
use crate::kinds::BroadcastKind;
use crate::shared::Shared;
use crate::subscriber::Subscriber;
use std::sync::Arc;

/// A step that reads the next value of a broadcast. See [`Subscriber::read`].
#[derive(Debug)]
#[must_use = "a step does nothing until it runs"]
pub struct Next<'a, T: Send + Sync + 'static, K: BroadcastKind>(&'a Subscriber<T, K>);

impl<'a, T: Send + Sync + 'static, K: BroadcastKind> Next<'a, T, K> {
    pub(crate) fn new(subscriber: &'a Subscriber<T, K>) -> Next<'a, T, K> {
        Next(subscriber)
    }
}

impl<T: Send + Sync + 'static, K: BroadcastKind> Reads for Next<'_, T, K> {
    type Value = Arc<T>;

    #[inline]
    fn value(&mut self, shared: &mut Shared, said: Said) -> Option<Arc<T>> {
        (said.code == reply::GOT).then(|| self.0.got(shared, said.value))
    }
}

impl<T: Send + Sync + 'static, K: BroadcastKind> Step for Next<'_, T, K> {
    type Reply = K::Read<Arc<T>>;

    #[inline]
    fn order(&mut self, _shared: &mut Shared) -> Order {
        Order::by(op::READ, self.0.chan.number, self.0.reader)
    }

    fn reply(&mut self, shared: &mut Shared, said: Said) -> Self::Reply {
        K::read(self.value(shared, said))
    }

    fn domain(&self) -> &Arc<Inner> {
        &self.0.chan.inner
    }
}
