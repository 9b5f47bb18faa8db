use super::{Cause, Failure, error_with_value};

/// Why steps did not commit. They come back, with the values that they were to write.
#[derive(Clone, Copy, PartialEq, Eq)]
#[non_exhaustive]
pub enum TryRunError<S> {
    /// A step must wait, and the call does not wait, or its time is over.
    Retry(S, Cause),
    /// A step is on a channel of another domain.
    OtherDomain(S),
    /// The transaction failed.
    Failed(S, Failure),
}

error_with_value!(
    TryRunError,
    TryRunError::Retry(_, cause) => cause,
    TryRunError::OtherDomain(_) => "a step is on a channel of another domain",
    TryRunError::Failed(_, failure) => failure,
);

impl<S> TryRunError<S> {
    /// The steps.
    pub fn into_steps(self) -> S {
        match self {
            TryRunError::Retry(steps, _) | TryRunError::OtherDomain(steps) | TryRunError::Failed(steps, _) => steps,
        }
    }
}
