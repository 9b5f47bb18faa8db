use super::readers::Readers;
use crate::abi::op;
use std::collections::HashMap;

/// The number of writes after which the idle readers of a broadcast are emptied.
const WRITES: u32 = 16;

/// The idle readers of all broadcasts of a domain.
#[derive(Debug, Default)]
pub struct Idle {
    by_channel: HashMap<u16, Readers>,
}

impl Idle {
    pub fn is_empty(&self) -> bool {
        self.by_channel.is_empty()
    }

    /// Notes a change. Returns whether the readers of the channel must be emptied.
    pub fn note(&mut self, operation: u32, channel: u16) -> bool {
        let Some(idle) = self.by_channel.get_mut(&channel).filter(|_| operation == op::WRITE) else { return false };
        idle.writes = (idle.writes + 1) % WRITES;
        idle.writes == 0
    }

    pub fn add(&mut self, channel: u16, reader: u16) {
        self.by_channel.entry(channel).or_default().readers.push(reader);
    }

    pub fn take(&mut self, channel: u16) -> Option<u16> {
        let idle = self.by_channel.get_mut(&channel)?;
        let reader = idle.readers.pop();
        if idle.readers.is_empty() {
            self.by_channel.remove(&channel);
        }
        reader
    }

    pub fn of(&self, channel: u16) -> Vec<u16> {
        self.by_channel.get(&channel).map(|idle| idle.readers.clone()).unwrap_or_default()
    }
}
