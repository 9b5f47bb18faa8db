//! What was done on the queues of a domain that records.
//!
//! ```
//! use yalwythen::Domain;
//! use yalwythen::account::Act;
//!
//! let domain = Domain::recorded();
//! let (tx, rx) = domain.closable();
//! tx.send("one")?;
//! rx.recv()?;
//! tx.close();
//! let account = domain.account(&rx)?;
//! let acts: Vec<Act> = account.entries.iter().map(|entry| entry.act).collect();
//! assert!(matches!(acts[..], [Act::Wrote(written), Act::Took(taken), Act::Closed] if written == taken));
//! assert_eq!(account.left, []);
//! # Ok::<(), Box<dyn std::error::Error>>(())
//! ```

#[allow(clippy::module_inception)]
mod account;
mod act;
mod end;
mod entry;
mod origin;

pub use account::Account;
pub use act::Act;
pub use end::End;
pub use entry::Entry;
pub use origin::Origin;

use crate::abi::{Record, Said};
use crate::domain::Domain;
use crate::error::AccountError;
use crate::stopped::{Stopped, stopped};
use std::sync::Arc;

impl Domain {
    /// Returns what was done on a queue so far, and what is left in it.
    ///
    /// Fails if the domain does not record, if the end is of another domain or if allocation fails. Blocks only while
    /// other threads have the domain's lock, which it holds while the account is copied.
    pub fn account(&self, end: &impl End) -> Result<Account, AccountError> {
        let (inner, channel) = end.place();
        if !Arc::ptr_eq(inner, &self.inner) {
            return Err(AccountError::OtherDomain);
        }
        if !self.inner.records {
            return Err(AccountError::NotRecorded);
        }
        let mut shared = self.inner.lock();
        // The first call returns the number of records, and the second one writes them all.
        let mut records = Vec::new();
        loop {
            let said = shared.core.account(channel, 0, &mut records);
            if said.code != Said::DONE {
                let Stopped::Failed(failure) = stopped(said) else { unreachable!("an account does not wait") };
                return Err(AccountError::Failed(failure));
            }
            if said.value as usize <= records.len() {
                break;
            }
            records.resize(said.value as usize, Record::default());
        }
        drop(shared);
        Ok(Account::of(&records))
    }
}
