use super::Order;

/// A question to a domain, or a command.
#[derive(Debug, Clone, Copy, PartialEq, Eq)]
pub enum Ask {
    /// Adds a channel. The size is its bound or its number of readers.
    Declare { kind: u64, size: u64 },
    /// Adds a seat.
    AddSeat,
    /// The number of items that a reader has to read.
    Length { channel: u16, reader: u16 },
    /// Whether a channel is closed.
    IsClosed { channel: u16 },
    /// Begins a transaction step by step.
    Begin { seat: u64 },
    /// Applies a step to the open transaction.
    Apply(Order),
    /// Sets a savepoint in the open transaction.
    SetSavepoint,
    /// Rolls back to the last savepoint and removes it.
    RollBackToSavepoint,
    /// Removes the last savepoint.
    ReleaseSavepoint,
    /// Commits the open transaction.
    Commit,
    /// Rolls back the open transaction.
    RollBack,
}

impl Ask {
    /// The verb and its two arguments.
    pub fn numbers(self) -> [u64; 3] {
        match self {
            Ask::Declare { kind, size } => [0, kind, size],
            Ask::AddSeat => [1, 0, 0],
            Ask::Length { channel, reader } => [4, channel.into(), reader.into()],
            Ask::IsClosed { channel } => [5, channel.into(), 0],
            Ask::Begin { seat } => [6, seat, 0],
            Ask::Apply(order) => {
                let place = u64::from(order.channel) << 32 | u64::from(order.reader) << 48;
                [7, u64::from(order.op) | place, order.body]
            }
            Ask::SetSavepoint => [8, 0, 0],
            Ask::RollBackToSavepoint => [9, 0, 0],
            Ask::ReleaseSavepoint => [10, 0, 0],
            Ask::Commit => [11, 0, 0],
            Ask::RollBack => [12, 0, 0],
        }
    }
}
