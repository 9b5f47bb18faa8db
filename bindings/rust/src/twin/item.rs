/// An item of a channel.
#[derive(Debug, Clone, Copy, PartialEq, Eq)]
pub struct Item {
    pub body: u64,
    /// 0 if it was written, 1 if it was put back.
    pub origin: u16,
    /// Its number among those of the same origin.
    pub number: u64,
    /// The seat that made it.
    pub maker: u16,
}
