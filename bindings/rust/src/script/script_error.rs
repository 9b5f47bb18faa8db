use std::error::Error;
use std::fmt;

/// Why a script is rejected.
#[derive(Debug, Clone, Copy, PartialEq, Eq)]
#[non_exhaustive]
pub enum ScriptError {
    /// The number of its first fault, 2 to 11, in the order of `docs/SCRIPTS.md`.
    Fault(u64),
    /// It has a broadcast channel, which only the program `chanrun` replays.
    Broadcast,
    /// Allocation failed.
    NoMemory,
}

impl ScriptError {
    pub(super) fn numbered(number: u64) -> ScriptError {
        match number {
            12 => ScriptError::NoMemory,
            13 => ScriptError::Broadcast,
            fault => ScriptError::Fault(fault),
        }
    }
}

impl fmt::Display for ScriptError {
    fn fmt(&self, f: &mut fmt::Formatter<'_>) -> fmt::Result {
        match self {
            ScriptError::Fault(number) => write!(f, "the script has fault {number}"),
            ScriptError::Broadcast => f.write_str("the script has a broadcast channel"),
            ScriptError::NoMemory => f.write_str("out of memory"),
        }
    }
}

impl Error for ScriptError {}
