use super::{Failure, error_with_value};

/// Why a value was not sent in time.
#[derive(Clone, Copy, PartialEq, Eq)]
#[non_exhaustive]
pub enum SendTimeoutError<T> {
    /// The queue was full until the time was over.
    Timeout(T),
    /// The channel is closed.
    Closed(T),
    /// The transaction failed.
    Failed(T, Failure),
}

error_with_value!(
    SendTimeoutError,
    SendTimeoutError::Timeout(_) => "timed out sending on a full channel",
    SendTimeoutError::Closed(_) => "sending on a closed channel",
    SendTimeoutError::Failed(_, failure) => failure,
);

impl<T> SendTimeoutError<T> {
    /// The value that was not sent.
    pub fn into_inner(self) -> T {
        match self {
            SendTimeoutError::Timeout(value) | SendTimeoutError::Closed(value) | SendTimeoutError::Failed(value, _) => {
                value
            }
        }
    }

    /// Whether the time was over.
    pub fn is_timeout(&self) -> bool {
        matches!(self, SendTimeoutError::Timeout(_))
    }

    /// Whether the channel was closed.
    pub fn is_closed(&self) -> bool {
        matches!(self, SendTimeoutError::Closed(_))
    }
}
