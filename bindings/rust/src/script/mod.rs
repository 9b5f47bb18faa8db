//! Scripts of the repository's `docs/SCRIPTS.md`, checked and replayed by the proved library. Not available with the
//! feature `twin`.

mod checkup;
mod script_error;

pub use checkup::Checkup;
pub use script_error::ScriptError;

use crate::{abi, core};

/// Returns whether a queue of a script may have this bound: at most 65,535.
pub fn is_bound(bound: u64) -> bool {
    core::is_bound(bound)
}

/// Checks a script. Returns the number of its channels and seats.
///
/// Fails with its first fault, or if allocation fails.
pub fn check(script: &[u8]) -> Result<Checkup, ScriptError> {
    match core::check(script) {
        abi::Checkup { code: 0, channels, seats } => Ok(Checkup { channels, seats }),
        fault => Err(ScriptError::numbered(fault.code)),
    }
}

/// Replays a script in this thread. Returns its report.
///
/// Fails with the script's first fault, if it has a broadcast channel or if allocation fails. If the report is longer
/// than 4,096 bytes, the script is replayed twice.
pub fn replay(script: &[u8]) -> Result<Vec<u8>, ScriptError> {
    let mut out = vec![0; 4096];
    loop {
        let replayed = core::replay(script, &mut out);
        // The report is in memory, so its length is a `usize`.
        let length = replayed.length as usize;
        match replayed.code {
            0 => {
                out.truncate(length);
                return Ok(out);
            }
            14 => out.resize(length, 0),
            fault => return Err(ScriptError::numbered(fault)),
        }
    }
}
