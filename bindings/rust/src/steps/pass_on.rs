use super::Steps;
use crate::abi::{Order, Said, op, reply};
use crate::inner::Inner;
use crate::kinds::QueueKind;
use crate::receiver::Receiver;
use crate::sender::Sender;
use crate::shared::Shared;
use std::sync::Arc;

/// A step that moves the first value of a queue to another queue. See [`Receiver::pass_on`].
#[derive(Debug)]
#[must_use = "a step does nothing until it runs"]
pub struct PassOn<'a, T, K: QueueKind, L: QueueKind> {
    from: &'a Receiver<T, K>,
    to: &'a Sender<T, L>,
}

impl<'a, T, K: QueueKind, L: QueueKind> PassOn<'a, T, K, L> {
    pub(crate) fn new(from: &'a Receiver<T, K>, to: &'a Sender<T, L>) -> PassOn<'a, T, K, L> {
        PassOn { from, to }
    }
}

impl<T: Send + 'static, K: QueueKind, L: QueueKind> Steps for PassOn<'_, T, K, L> {
    type Replies = K::Read<L::Written<T>>;

    fn put(&mut self, shared: &mut Shared) {
        shared.orders.push(Order::new(op::READ, self.from.chan.number));
        shared.orders.push(Order::new(op::WRITE_LAST, self.to.chan.number));
    }

    fn committed(&mut self, shared: &mut Shared) -> Self::Replies {
        let (read, written) = (shared.next_reply(), shared.next_reply());
        K::read(match read {
            Said { code: reply::GOT, value } => Some(L::written(match written.code {
                // The key stays in the store, which all queues of this type share.
                reply::DONE => Ok(()),
                _ => Err(self.from.chan.take_back(shared, value)),
            })),
            _ => None,
        })
    }

    fn back(&mut self, _shared: &mut Shared) {}

    fn is_of(&self, inner: &Arc<Inner>) -> bool {
        Arc::ptr_eq(&self.from.chan.inner, inner) && Arc::ptr_eq(&self.to.chan.inner, inner)
    }

    fn inner(&self) -> Option<&Arc<Inner>> {
        Some(&self.from.chan.inner)
    }
}
