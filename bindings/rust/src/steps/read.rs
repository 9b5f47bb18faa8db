use super::{Reads, Step};
use crate::abi::{Order, Said, op, reply};
use crate::inner::Inner;
use crate::kinds::QueueKind;
use crate::receiver::Receiver;
use crate::shared::Shared;
use std::sync::Arc;

/// A step that reads the first value of a queue. See [`Receiver::read`].
#[derive(Debug)]
#[must_use = "a step does nothing until it runs"]
pub struct Read<'a, T, K: QueueKind>(&'a Receiver<T, K>);

impl<'a, T, K: QueueKind> Read<'a, T, K> {
    pub(crate) fn new(receiver: &'a Receiver<T, K>) -> Read<'a, T, K> {
        Read(receiver)
    }
}

impl<T: Send + 'static, K: QueueKind> Reads for Read<'_, T, K> {
    type Value = T;

    #[inline]
    fn value(&mut self, shared: &mut Shared, said: Said) -> Option<T> {
        (said.code == reply::GOT).then(|| self.0.chan.take_back(shared, said.value))
    }
}

impl<T: Send + 'static, K: QueueKind> Step for Read<'_, T, K> {
    type Reply = K::Read<T>;

    #[inline]
    fn order(&mut self, _shared: &mut Shared) -> Order {
        Order::new(op::READ, self.0.chan.number)
    }

    fn reply(&mut self, shared: &mut Shared, said: Said) -> K::Read<T> {
        K::read(self.value(shared, said))
    }

    fn domain(&self) -> &Arc<Inner> {
        &self.0.chan.inner
    }
}
