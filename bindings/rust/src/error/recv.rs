use super::{Failure, error};

/// Why no value was received.
#[derive(Debug, Clone, Copy, PartialEq, Eq)]
#[non_exhaustive]
pub enum RecvError {
    /// The channel is closed, and nothing is left to read.
    Closed,
    /// The transaction failed.
    Failed(Failure),
}

error!(
    RecvError,
    RecvError::Closed => "receiving on a closed and empty channel",
    RecvError::Failed(failure) => failure,
);

impl RecvError {
    /// Whether the channel was closed.
    pub fn is_closed(&self) -> bool {
        matches!(self, RecvError::Closed)
    }
}
