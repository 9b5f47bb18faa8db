use super::savepoint::Savepoint;
use super::undo::Undo;
use crate::abi::Said;

/// An open transaction.
#[derive(Debug)]
pub struct Open {
    pub seat: u16,
    pub stamp: u64,
    /// The channel of each operation, also of those that were rolled back.
    pub touched: Vec<u16>,
    /// The changes so far, with their channels.
    pub undo: Vec<(u16, Undo)>,
    pub replies: Vec<Said>,
    /// The body that was read or peeked last.
    pub last: Option<u64>,
    /// Whether only a rollback is possible.
    pub is_broken: bool,
    savepoints: Vec<Savepoint>,
}

impl Open {
    pub fn new(seat: u16, stamp: u64) -> Open {
        Open {
            seat,
            stamp,
            touched: Vec::new(),
            undo: Vec::new(),
            replies: Vec::new(),
            last: None,
            is_broken: false,
            savepoints: Vec::new(),
        }
    }

    /// Sets a savepoint. Returns how many there are.
    pub fn set_savepoint(&mut self) -> u64 {
        self.savepoints.push(Savepoint { undo: self.undo.len(), replies: self.replies.len(), last: self.last });
        self.savepoints.len() as u64
    }

    /// Removes the last savepoint. Returns how many are left, and the changes since it.
    pub fn roll_back_to_savepoint(&mut self) -> Option<(u64, Vec<(u16, Undo)>)> {
        let savepoint = self.savepoints.pop()?;
        self.replies.truncate(savepoint.replies);
        self.last = savepoint.last;
        self.is_broken = false;
        Some((self.savepoints.len() as u64, self.undo.split_off(savepoint.undo)))
    }

    /// Removes the last savepoint. Returns how many are left.
    pub fn release_savepoint(&mut self) -> Option<u64> {
        self.savepoints.pop()?;
        Some(self.savepoints.len() as u64)
    }
}
