use super::op;

/// A step of a transaction.
#[repr(C)]
#[derive(Debug, Clone, Copy, PartialEq, Eq)]
pub struct Order {
    pub op: u32,
    pub channel: u16,
    pub reader: u16,
    pub body: u64,
}

impl Order {
    /// A step on reader 0 of a channel.
    pub fn new(op: u32, channel: u16) -> Order {
        Order { op, channel, reader: 0, body: 0 }
    }

    pub fn write(channel: u16, body: u64) -> Order {
        Order { op: op::WRITE, channel, reader: 0, body }
    }

    /// A step on a reader of a broadcast.
    pub fn by(op: u32, channel: u16, reader: u16) -> Order {
        Order { op, channel, reader, body: 0 }
    }
}
