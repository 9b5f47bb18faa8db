use super::Step;
use crate::abi::{Order, Said, op, reply};
use crate::inner::Inner;
use crate::kinds::QueueKind;
use crate::receiver::Receiver;
use crate::shared::Shared;
use std::sync::Arc;

/// A step that waits for a value of a queue, clones it and leaves it there. See [`Receiver::peek`].
#[derive(Debug)]
#[must_use = "a step does nothing until it runs"]
pub struct Peek<'a, T, K: QueueKind>(&'a Receiver<T, K>);

impl<'a, T, K: QueueKind> Peek<'a, T, K> {
    pub(crate) fn new(receiver: &'a Receiver<T, K>) -> Peek<'a, T, K> {
        Peek(receiver)
    }
}

impl<T: Clone + Send + 'static, K: QueueKind> Step for Peek<'_, T, K> {
    type Reply = K::Read<T>;

    fn order(&mut self, _shared: &mut Shared) -> Order {
        Order::new(op::PEEK, self.0.chan.number)
    }

    fn reply(&mut self, shared: &mut Shared, said: Said) -> K::Read<T> {
        let slots = shared.stores.slots::<T>(self.0.chan.store);
        // A value that a later step of these reads is still there: it is taken when that step's reply is read.
        K::read((said.code == reply::GOT).then(|| slots.get(said.value).clone()))
    }

    fn domain(&self) -> &Arc<Inner> {
        &self.0.chan.inner
    }
}
