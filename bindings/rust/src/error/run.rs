use super::{Failure, error};

/// Why steps were not run.
#[derive(Debug, Clone, Copy, PartialEq, Eq)]
#[non_exhaustive]
pub enum RunError {
    /// A step is on a channel of another domain.
    OtherDomain,
    /// The transaction failed.
    Failed(Failure),
}

error!(
    RunError,
    RunError::OtherDomain => "a step is on a channel of another domain",
    RunError::Failed(failure) => failure,
);
