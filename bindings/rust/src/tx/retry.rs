use std::error::Error;
use std::fmt;

/// The error of a step in an [`atomically`](crate::Domain::atomically) closure. The closure returns it, by `?`.
///
/// It means that the transaction, or the branch of an [`or_else`](crate::Tx::or_else), cannot go on now: it is rolled
/// back. It cannot be ignored: a closure that drops it and returns `Ok` is rolled back too.
#[derive(Debug)]
pub struct Retry(pub(super) ());

impl fmt::Display for Retry {
    fn fmt(&self, f: &mut fmt::Formatter<'_>) -> fmt::Result {
        f.write_str("the transaction must be retried")
    }
}

impl Error for Retry {}
