use super::Act;

/// A change of a queue by a transaction that committed.
#[derive(Debug, Clone, Copy, PartialEq, Eq)]
#[non_exhaustive]
pub struct Entry {
    /// The number of transactions of the domain that committed before.
    pub serial: u64,
    /// A number that grows from transaction to transaction.
    pub stamp: u64,
    /// What was done.
    pub act: Act,
}
