use super::Step;
use crate::abi::{Order, Said, op};
use crate::inner::Inner;
use crate::kinds::CloseKind;
use crate::sender::Sender;
use crate::shared::Shared;
use std::sync::Arc;

/// A step that closes a channel. See [`Sender::closing`].
#[derive(Debug)]
#[must_use = "a step does nothing until it runs"]
pub struct Closing<'a, T, K: CloseKind>(&'a Sender<T, K>);

impl<'a, T, K: CloseKind> Closing<'a, T, K> {
    pub(crate) fn new(sender: &'a Sender<T, K>) -> Closing<'a, T, K> {
        Closing(sender)
    }
}

impl<T, K: CloseKind> Step for Closing<'_, T, K> {
    type Reply = ();

    fn order(&mut self, _shared: &mut Shared) -> Order {
        Order::new(op::CLOSE, self.0.chan.number)
    }

    fn reply(&mut self, _shared: &mut Shared, _said: Said) {}

    fn domain(&self) -> &Arc<Inner> {
        &self.0.chan.inner
    }
}
