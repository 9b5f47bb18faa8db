/// What the open transaction of a domain notes of its steps. The next one uses the same memory.
#[derive(Debug, Default)]
pub struct Notes {
    /// The channel of each step, also in branches that were rolled back.
    pub touched: Vec<u16>,
    /// The operations that changed a channel.
    pub changes: Vec<(u32, u16)>,
}

impl Notes {
    pub fn clear(&mut self) {
        self.touched.clear();
        self.changes.clear();
    }

    /// The channels that a step was on, each once.
    pub fn channels(&mut self) -> &[u16] {
        self.touched.sort_unstable();
        self.touched.dedup();
        &self.touched
    }
}
