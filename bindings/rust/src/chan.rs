//! What an end of a channel knows.

use crate::abi::{Ask, Order, Said, op, reply};
use crate::inner::Inner;
use crate::kinds::Kind;
use crate::shared::Shared;
use std::marker::PhantomData;
use std::sync::Arc;

/// A channel of a domain.
pub struct Chan<T, K> {
    pub inner: Arc<Inner>,
    pub number: u16,
    /// The number of the store with its values.
    pub store: usize,
    pub bound: usize,
    /// The bounds of `T` are checked when the channel is made.
    marker: PhantomData<fn() -> (T, K)>,
}

impl<T, K> Clone for Chan<T, K> {
    fn clone(&self) -> Chan<T, K> {
        Chan::new(Arc::clone(&self.inner), self.number, self.store, self.bound)
    }
}

impl<T, K> Chan<T, K> {
    pub fn new(inner: Arc<Inner>, number: u16, store: usize, bound: usize) -> Chan<T, K> {
        Chan { inner, number, store, bound, marker: PhantomData }
    }

    pub fn is_same<L>(&self, other: &Chan<T, L>) -> bool {
        self.number == other.number && Arc::ptr_eq(&self.inner, &other.inner)
    }

    /// The number of items that a reader has to read.
    pub fn len(&self, reader: u16) -> usize {
        let ask = Ask::Length { channel: self.number, reader };
        self.inner.lock_without_naps().number(ask) as usize
    }

    /// Whether a reader has nothing to read.
    pub fn is_empty(&self, reader: u16) -> bool {
        self.inner.lock_without_naps().flag(Order::by(op::IS_EMPTY, self.number, reader))
    }

    /// Whether the queue, which has a bound, is full.
    pub fn is_full(&self) -> bool {
        self.inner.lock_without_naps().flag(Order::new(op::IS_FULL, self.number))
    }

    pub fn is_closed(&self) -> bool {
        let ask = Ask::IsClosed { channel: self.number };
        self.inner.lock_without_naps().number(ask) != 0
    }

    /// Closes the channel.
    pub fn close(&self) {
        self.inner.lock().close(self.number);
    }

    /// Closes the channel, now or once this thread has released the lock.
    pub fn close_soon(&self) {
        let number = self.number;
        self.inner.soon(move |shared| shared.close(number));
    }
}

impl<T: Send + 'static, K: Kind> Chan<T, K> {
    /// Stores a value that is to be written. Returns its body.
    #[inline]
    pub fn put(&self, shared: &mut Shared, value: T) -> u64 {
        K::put(&mut shared.stores, self.store, value)
    }

    /// Takes a value back that was not written.
    #[inline]
    pub fn take_back(&self, shared: &mut Shared, body: u64) -> T {
        K::take_back(&mut shared.stores, self.store, body)
    }

    /// Drops a value that was written to a broadcast without readers.
    #[inline]
    pub fn trim(&self, shared: &mut Shared, body: u64) {
        if let Some(left) = K::trim::<T>(&mut shared.stores, self.store, body) {
            shared.after.garbage.push(left);
        }
    }

    /// Closes a queue that has no receiver any more, and drops what is left in it.
    pub fn discard(&self) {
        self.close_soon();
        let chan: Chan<T, K> = self.clone();
        self.inner.soon(move |shared| {
            while let Some(value) = chan.take_one(shared) {
                shared.after.garbage.push(Box::new(value));
            }
        });
    }

    fn take_one(&self, shared: &mut Shared) -> Option<T> {
        match shared.run_one(Order::new(op::TRY_READ, self.number)) {
            Ok(Said { code: reply::GOT, value }) => Some(self.take_back(shared, value)),
            _ => None,
        }
    }
}
