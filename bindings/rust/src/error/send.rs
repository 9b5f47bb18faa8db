use super::{Failure, error_with_value};

/// Why a value was not sent.
#[derive(Clone, Copy, PartialEq, Eq)]
#[non_exhaustive]
pub enum SendError<T> {
    /// The channel is closed.
    Closed(T),
    /// The transaction failed.
    Failed(T, Failure),
}

error_with_value!(
    SendError,
    SendError::Closed(_) => "sending on a closed channel",
    SendError::Failed(_, failure) => failure,
);

impl<T> SendError<T> {
    /// The value that was not sent.
    pub fn into_inner(self) -> T {
        match self {
            SendError::Closed(value) | SendError::Failed(value, _) => value,
        }
    }

    /// Whether the channel was closed.
    pub fn is_closed(&self) -> bool {
        matches!(self, SendError::Closed(_))
    }
}
