use super::{Failure, error_with_value};

/// Why a value was not sent at once.
#[derive(Clone, Copy, PartialEq, Eq)]
#[non_exhaustive]
pub enum TrySendError<T> {
    /// The queue is full.
    Full(T),
    /// The channel is closed.
    Closed(T),
    /// The transaction failed.
    Failed(T, Failure),
}

error_with_value!(
    TrySendError,
    TrySendError::Full(_) => "sending on a full channel",
    TrySendError::Closed(_) => "sending on a closed channel",
    TrySendError::Failed(_, failure) => failure,
);

impl<T> TrySendError<T> {
    /// The value that was not sent.
    pub fn into_inner(self) -> T {
        match self {
            TrySendError::Full(value) | TrySendError::Closed(value) | TrySendError::Failed(value, _) => value,
        }
    }

    /// Whether the queue was full.
    pub fn is_full(&self) -> bool {
        matches!(self, TrySendError::Full(_))
    }

    /// Whether the channel was closed.
    pub fn is_closed(&self) -> bool {
        matches!(self, TrySendError::Closed(_))
    }
}
