use super::hold::Hold;
use crate::shared::Shared;
use std::rc::Rc;

/// A function on a value that was written: its store and its body.
pub type OnWritten = fn(&mut Shared, usize, u64);

/// What an open transaction did to the values, in order, so that it can be rolled back.
pub enum Entry {
    /// A value that was read, peeked or written onwards; and whether it was taken before.
    Held { held: Rc<dyn Hold>, was_taken: bool },
    /// A new value that was written. At a rollback it is dropped.
    New { store: usize, body: u64, commit: OnWritten, roll_back: OnWritten },
    /// A value that a subscriber read.
    Heard { store: usize, reader: u16, number: u64, commit: fn(&mut Shared, usize, u16, u64) },
}
