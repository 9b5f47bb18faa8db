use super::{Failure, error};

/// Why no value was received at once.
#[derive(Debug, Clone, Copy, PartialEq, Eq)]
#[non_exhaustive]
pub enum TryRecvError {
    /// The channel is empty.
    Empty,
    /// The channel is closed, and nothing is left to read.
    Closed,
    /// The transaction failed.
    Failed(Failure),
}

error!(
    TryRecvError,
    TryRecvError::Empty => "receiving on an empty channel",
    TryRecvError::Closed => "receiving on a closed and empty channel",
    TryRecvError::Failed(failure) => failure,
);

impl TryRecvError {
    /// Whether the channel was empty.
    pub fn is_empty(&self) -> bool {
        matches!(self, TryRecvError::Empty)
    }

    /// Whether the channel was closed.
    pub fn is_closed(&self) -> bool {
        matches!(self, TryRecvError::Closed)
    }
}
