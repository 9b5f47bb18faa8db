//! A place in the lines of a domain.

use crate::inner::Inner;
use crate::shared::Shared;
use crate::waiting::Wishes;
use std::task::Waker;

/// The place of a thread or a future that waits. If it is dropped after it was woken and before it has used the wake,
/// as a future may be or a thread that panics, the wake goes to another waiter.
pub struct Ticket<'a> {
    inner: &'a Inner,
    /// Its number and what it waits for, once it has waited.
    waits: Option<(u64, Wishes)>,
}

impl<'a> Ticket<'a> {
    pub fn new(inner: &'a Inner) -> Ticket<'a> {
        Ticket { inner, waits: None }
    }

    /// Waits at the end of the line, or, if it waited for the same before, at its former place.
    pub fn wait(&mut self, shared: &mut Shared, wishes: Wishes, waker: &Waker) {
        let number = match self.waits.take() {
            Some((number, old)) if old == wishes => Some(number),
            Some((number, old)) => {
                shared.give_up(number, &old);
                None
            }
            None => None,
        };
        let (number, old) = shared.waiters.add(number, wishes.clone(), waker);
        if let Some(old) = old {
            shared.after.garbage.push(Box::new(old));
        }
        self.waits = Some((number, wishes));
    }

    /// Ends the wait. If the transaction did not commit, a wake that was not used goes to another waiter.
    #[inline]
    pub fn end(&mut self, shared: &mut Shared, has_committed: bool) {
        if self.waits.is_some() {
            self.end_wait(shared, has_committed);
        }
    }

    fn end_wait(&mut self, shared: &mut Shared, has_committed: bool) {
        match self.waits.take() {
            Some((number, _)) if has_committed => {
                if let Some(waker) = shared.waiters.remove(number) {
                    shared.after.garbage.push(Box::new(waker));
                }
            }
            Some((number, wishes)) => shared.give_up(number, &wishes),
            None => {}
        }
    }
}

impl Drop for Ticket<'_> {
    #[inline]
    fn drop(&mut self) {
        if let Some((number, wishes)) = self.waits.take() {
            self.inner.soon(move |shared| shared.give_up(number, &wishes));
        }
    }
}
