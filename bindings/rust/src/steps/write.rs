use super::Step;
use crate::abi::{Order, Said, reply};
use crate::inner::Inner;
use crate::kinds::Kind;
use crate::sender::Sender;
use crate::shared::Shared;
use std::fmt;
use std::sync::Arc;

/// A step that writes a value. See [`Sender::write`].
#[must_use = "a step does nothing until it runs"]
pub struct Write<'a, T, K: Kind> {
    to: &'a Sender<T, K>,
    /// The value, except during an attempt and after a commit.
    value: Option<T>,
    /// The number of the value during an attempt.
    body: u64,
}

impl<T, K: Kind> fmt::Debug for Write<'_, T, K> {
    fn fmt(&self, f: &mut fmt::Formatter<'_>) -> fmt::Result {
        f.debug_struct("Write").field("to", self.to).finish_non_exhaustive()
    }
}

impl<'a, T, K: Kind> Write<'a, T, K> {
    pub(crate) fn new(to: &'a Sender<T, K>, value: T) -> Write<'a, T, K> {
        Write { to, value: Some(value), body: 0 }
    }

    /// Returns the value.
    ///
    /// # Panics
    ///
    /// If it was written.
    pub fn into_value(self) -> T {
        self.value.expect("the value was written")
    }
}

impl<T: Send + 'static, K: Kind> Write<'_, T, K> {
    /// Whether the value was written: it comes back if the channel is closed.
    #[inline]
    pub(crate) fn result(&mut self, shared: &mut Shared, said: Said) -> Result<(), T> {
        if said.code == reply::CLOSED {
            return Err(self.to.chan.take_back(shared, self.body));
        }
        self.to.chan.trim(shared, self.body);
        Ok(())
    }
}

impl<T: Send + 'static, K: Kind> Step for Write<'_, T, K> {
    type Reply = K::Written<T>;

    #[inline]
    fn order(&mut self, shared: &mut Shared) -> Order {
        let value = self.value.take().expect("a step runs once");
        self.body = self.to.chan.put(shared, value);
        Order::write(self.to.chan.number, self.body)
    }

    fn reply(&mut self, shared: &mut Shared, said: Said) -> K::Written<T> {
        K::written(self.result(shared, said))
    }

    fn undo(&mut self, shared: &mut Shared) {
        self.value = Some(self.to.chan.take_back(shared, self.body));
    }

    fn domain(&self) -> &Arc<Inner> {
        &self.to.chan.inner
    }
}
