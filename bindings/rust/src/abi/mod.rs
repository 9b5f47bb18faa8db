//! The types and numbers of the library's calls.

mod ask;
#[cfg(not(feature = "twin"))]
mod checkup;
pub mod op;
mod order;
mod record;
#[cfg(not(feature = "twin"))]
mod replayed;
pub mod reply;
mod said;

pub use ask::Ask;
#[cfg(not(feature = "twin"))]
pub use checkup::Checkup;
pub use order::Order;
pub use record::Record;
#[cfg(not(feature = "twin"))]
pub use replayed::Replayed;
pub use said::Said;
