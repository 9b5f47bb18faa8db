//! A number for each thread.

use std::ptr;

thread_local! {
    static MARK: u8 = const { 0 };
}

/// The number of this thread, which no other running thread has. It is never 0.
#[inline]
pub fn current() -> usize {
    MARK.with(|mark| ptr::from_ref(mark).addr())
}
