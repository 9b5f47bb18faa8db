/// The numbers of channels and seats of a script.
#[derive(Debug, Clone, Copy, PartialEq, Eq)]
pub struct Checkup {
    /// The number of channels that it declares.
    pub channels: u64,
    /// The number of seats that it has.
    pub seats: u64,
}
