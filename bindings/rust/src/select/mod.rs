//! Alternatives, each with what is done if it commits.

mod alternative;
mod arm;
mod arms;
mod choice;
mod macros;
#[allow(clippy::module_inception)]
mod select;

pub use choice::Choice;
pub use macros::__selected;
pub use select::Select;
