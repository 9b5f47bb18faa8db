/// A name under which transactions run.
#[derive(Debug, Clone, Copy, Default)]
pub struct Seat {
    /// The number of its transactions that committed.
    pub serial: u64,
    /// The stamp of the last of them.
    pub stamp: u64,
}
