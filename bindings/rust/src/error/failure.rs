use super::error;

/// Why a transaction failed, other than by the state of its channels.
#[derive(Debug, Clone, Copy, PartialEq, Eq)]
#[non_exhaustive]
pub enum Failure {
    /// Allocation failed.
    NoMemory,
    /// A serial, a stamp or a log of the domain has reached 2^64 - 1.
    Worn,
}

error!(
    Failure,
    Failure::NoMemory => "out of memory",
    Failure::Worn => "the domain can run no more transactions",
);
