use super::{Failure, error};

/// Why no value was received in time.
#[derive(Debug, Clone, Copy, PartialEq, Eq)]
#[non_exhaustive]
pub enum RecvTimeoutError {
    /// The channel was empty until the time was over.
    Timeout,
    /// The channel is closed, and nothing is left to read.
    Closed,
    /// The transaction failed.
    Failed(Failure),
}

error!(
    RecvTimeoutError,
    RecvTimeoutError::Timeout => "timed out receiving on an empty channel",
    RecvTimeoutError::Closed => "receiving on a closed and empty channel",
    RecvTimeoutError::Failed(failure) => failure,
);

impl RecvTimeoutError {
    /// Whether the time was over.
    pub fn is_timeout(&self) -> bool {
        matches!(self, RecvTimeoutError::Timeout)
    }

    /// Whether the channel was closed.
    pub fn is_closed(&self) -> bool {
        matches!(self, RecvTimeoutError::Closed)
    }
}
