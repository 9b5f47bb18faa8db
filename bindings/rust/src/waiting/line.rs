use std::collections::VecDeque;

/// Tickets of those that wait for one side of a channel, in order.
#[derive(Debug, Default)]
pub struct Line {
    /// Of those that take exactly one item or place.
    pub single: VecDeque<u64>,
    /// Of those that wait for this among other things.
    pub several: VecDeque<u64>,
}

impl Line {
    pub fn of(&mut self, is_single: bool) -> &mut VecDeque<u64> {
        if is_single { &mut self.single } else { &mut self.several }
    }
}
