//! What is done after the lock of a domain is released.

use crate::waiting::Woken;
use std::any::Any;

/// What a thread that had the lock leaves to be done without it. It is done when this is dropped.
#[derive(Default)]
pub struct After {
    /// Those that are woken.
    pub woken: Woken,
    /// What is dropped.
    pub garbage: Vec<Box<dyn Any + Send>>,
}

impl After {
    #[inline]
    pub fn is_empty(&self) -> bool {
        self.woken.is_empty() && self.garbage.is_empty()
    }
}

impl Drop for After {
    fn drop(&mut self) {
        std::mem::take(&mut self.woken).wake();
    }
}
