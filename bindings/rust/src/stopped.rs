//! How a call of the library ended.

use crate::abi::Said;
use crate::error::{Cause, Failure};

/// Why a transaction did not commit.
#[derive(Debug, Clone, Copy, PartialEq, Eq)]
pub enum Stopped {
    /// It must wait.
    Retry(Cause),
    /// It failed.
    Failed(Failure),
}

/// `Ok` if a call was done.
pub fn done(said: Said) -> Result<(), Stopped> {
    if said.code == Said::DONE { Ok(()) } else { Err(stopped(said)) }
}

/// Why a call was not done.
///
/// # Panics
///
/// If it returned what no call of this crate leads to.
pub fn stopped(said: Said) -> Stopped {
    match said {
        Said { code: Said::RETRY, value: 0 } => Stopped::Retry(Cause::Full),
        Said { code: Said::RETRY, .. } => Stopped::Retry(Cause::Empty),
        Said { code: Said::NO_MEMORY, .. } => Stopped::Failed(Failure::NoMemory),
        Said { code: Said::STOPPED, value: 4 } => Stopped::Failed(Failure::Worn),
        other => unreachable!("the library returned {other:?}"),
    }
}
