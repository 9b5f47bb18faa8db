use super::line::Line;

/// Those that wait in one channel.
#[derive(Debug)]
pub struct Channel {
    pub is_bounded: bool,
    pub is_broadcast: bool,
    /// By the number of the side.
    pub sides: [Line; 2],
}
