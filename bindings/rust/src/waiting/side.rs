/// What is waited for in a channel.
#[derive(Debug, Clone, Copy, PartialEq, Eq)]
pub enum Side {
    /// An item to read.
    Items,
    /// Space for an item.
    Space,
}
