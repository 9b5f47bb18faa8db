use super::{Failure, error};

/// Why there is no account.
#[derive(Debug, Clone, Copy, PartialEq, Eq)]
#[non_exhaustive]
pub enum AccountError {
    /// The domain does not record: see `Domain::recorded`.
    NotRecorded,
    /// The channel is of another domain.
    OtherDomain,
    /// The account was not made.
    Failed(Failure),
}

error!(
    AccountError,
    AccountError::NotRecorded => "the domain does not record",
    AccountError::OtherDomain => "the channel is of another domain",
    AccountError::Failed(failure) => failure,
);
