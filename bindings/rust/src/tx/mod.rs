//! Transactions that decide as they go.

mod atomically;
mod attempt;
mod ended;
mod entry;
mod held;
mod hold;
mod item;
mod journal;
mod mark;
mod notes;
mod output;
mod peeked;
mod retry;
mod source;
#[allow(clippy::module_inception)]
mod tx;
mod writable;

pub use item::Item;
pub use notes::Notes;
pub use output::Output;
pub use peeked::Peeked;
pub use retry::Retry;
pub use source::Source;
pub use tx::Tx;
pub use writable::Writable;
