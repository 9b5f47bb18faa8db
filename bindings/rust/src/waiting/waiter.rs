use super::Wishes;
use std::task::Waker;

/// A thread or a task that waits.
#[derive(Debug)]
pub struct Waiter {
    pub wishes: Wishes,
    pub waker: Waker,
}
