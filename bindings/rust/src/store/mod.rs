//! The values on their way through a domain. The library carries their numbers.

mod feed;
mod slot;
mod slots;
mod stores;

pub use feed::Feed;
pub use slot::Slot;
pub use slots::{LOST, Slots};
pub use stores::Stores;
