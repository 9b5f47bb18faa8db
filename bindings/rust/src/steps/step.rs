use super::Steps;
use crate::abi::{Order, Said};
use crate::inner::Inner;
use crate::shared::Shared;
use std::sync::Arc;

/// A step that is one order of the library.
pub trait Step {
    /// What it replies.
    type Reply;

    /// Its order. Stores the value that it writes.
    fn order(&mut self, shared: &mut Shared) -> Order;

    /// Its typed reply, once it has committed.
    fn reply(&mut self, shared: &mut Shared, said: Said) -> Self::Reply;

    /// Takes the value back, since it did not commit.
    fn undo(&mut self, _shared: &mut Shared) {}

    /// The domain of its channel.
    fn domain(&self) -> &Arc<Inner>;
}

impl<S: Step> Steps for S {
    type Replies = S::Reply;

    fn put(&mut self, shared: &mut Shared) {
        let order = self.order(shared);
        shared.orders.push(order);
    }

    fn committed(&mut self, shared: &mut Shared) -> S::Reply {
        let said = shared.next_reply();
        self.reply(shared, said)
    }

    fn back(&mut self, shared: &mut Shared) {
        self.undo(shared);
    }

    fn is_of(&self, inner: &Arc<Inner>) -> bool {
        Arc::ptr_eq(self.domain(), inner)
    }

    fn inner(&self) -> Option<&Arc<Inner>> {
        Some(self.domain())
    }
}
