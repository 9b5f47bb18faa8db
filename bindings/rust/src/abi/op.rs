//! The numbers of the operations.

pub const WRITE: u32 = 0;
pub const READ: u32 = 2;
pub const TRY_READ: u32 = 3;
pub const PEEK: u32 = 4;
pub const PUT_BACK: u32 = 6;
pub const CLOSE: u32 = 7;
pub const IS_EMPTY: u32 = 9;
pub const IS_FULL: u32 = 10;
pub const WRITE_LAST: u32 = 12;
pub const DUPLICATE: u32 = 17;
pub const CLONE: u32 = 18;
