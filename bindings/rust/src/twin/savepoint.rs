/// A place in an open transaction.
#[derive(Debug, Clone, Copy)]
pub struct Savepoint {
    pub undo: usize,
    pub replies: usize,
    pub last: Option<u64>,
}
