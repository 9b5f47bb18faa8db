//! A domain that is locked.

use crate::inner::Inner;
use crate::shared::Shared;
use crate::thread_id;
use std::ops::{Deref, DerefMut};
use std::sync::MutexGuard;
use std::sync::atomic::Ordering::Relaxed;

/// The lock of a domain. When it is released, all that were chosen meanwhile are woken.
pub struct Guard<'a> {
    inner: &'a Inner,
    /// `None` only while the guard is dropped.
    shared: Option<MutexGuard<'a, Shared>>,
}

impl<'a> Guard<'a> {
    #[inline]
    pub fn new(inner: &'a Inner, shared: MutexGuard<'a, Shared>) -> Guard<'a> {
        inner.owner.store(thread_id::current(), Relaxed);
        Guard { inner, shared: Some(shared) }
    }
}

impl Deref for Guard<'_> {
    type Target = Shared;

    #[inline]
    fn deref(&self) -> &Shared {
        self.shared.as_ref().expect("it is not dropped")
    }
}

impl DerefMut for Guard<'_> {
    #[inline]
    fn deref_mut(&mut self) -> &mut Shared {
        self.shared.as_mut().expect("it is not dropped")
    }
}

impl Drop for Guard<'_> {
    #[inline]
    fn drop(&mut self) {
        let Some(shared) = self.shared.take() else { return };
        if shared.is_quiet() && !self.inner.has_late() {
            self.inner.owner.store(0, Relaxed);
        } else {
            release(self.inner, shared);
        }
    }
}

/// Does what was put off, releases the lock, and then does what is left for after it.
#[cold]
fn release(inner: &Inner, mut shared: MutexGuard<'_, Shared>) {
    inner.do_late(&mut shared);
    let after = shared.take_after();
    inner.owner.store(0, Relaxed);
    drop(shared);
    drop(after);
}
