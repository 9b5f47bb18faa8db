//! The codes of replies.

pub const DONE: u64 = 0;
pub const GOT: u64 = 1;
pub const CLOSED: u64 = 4;
pub const FLAG: u64 = 5;
pub const READER: u64 = 6;
