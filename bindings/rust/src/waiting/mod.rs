//! Waiting: who waits for what, and how a thread sleeps.

mod channel;
mod line;
mod side;
mod sleeper;
mod until;
mod waiter;
mod waiters;
mod wishes;
mod woken;

pub use side::Side;
pub use sleeper::Sleeper;
pub use until::Until;
pub use waiters::Waiters;
pub use wishes::Wishes;
pub use woken::Woken;
