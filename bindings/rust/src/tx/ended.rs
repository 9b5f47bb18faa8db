use super::hold::Hold;
use crate::error::Failure;
use crate::guard::Guard;
use crate::waiting::Wishes;
use std::rc::Rc;

/// How an attempt of a closure ended.
pub enum Ended<'d, R> {
    /// It committed, with what the closure returned and what it has taken.
    Committed(R, Vec<Rc<dyn Hold>>),
    /// It must wait for a change of these channels. The lock is still held.
    Retry(Guard<'d>, Wishes),
    /// It failed.
    Failed(Failure),
}
