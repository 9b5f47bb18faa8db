use super::ended::Ended;
use super::{Retry, Tx};
use crate::abi::{Ask, Said};
use crate::guard::Guard;
use crate::inner::Inner;
use crate::shared::SEAT;
use crate::stopped::{Stopped, done, stopped};
use crate::ticket::Ticket;
use crate::waiting::Wishes;
use std::sync::Arc;
use std::sync::atomic::{AtomicU64, Ordering::Relaxed};

/// The number of the next attempt of any closure.
static NEXT: AtomicU64 = AtomicU64::new(0);

/// Runs a closure once, in a transaction of its own.
pub fn attempt<'d, R>(
    inner: &'d Arc<Inner>,
    mut shared: Guard<'d>,
    ticket: &mut Ticket<'_>,
    closure: &mut impl FnMut(&mut Tx<'d>) -> Result<R, Retry>,
) -> Ended<'d, R> {
    if let Err(Stopped::Failed(failure)) = done(shared.core.ask(Ask::Begin { seat: SEAT })) {
        return Ended::Failed(failure);
    }
    shared.notes.clear();
    let mut open = Open(Some(Tx::new(inner, shared, NEXT.fetch_add(1, Relaxed))));
    let result = closure(open.tx());
    match result {
        Ok(output) if !open.tx().is_broken => open.commit(output, ticket),
        // What the closure returned may hold items, which go first.
        result => {
            drop(result);
            open.retry()
        }
    }
}

/// A transaction that is rolled back if the closure panics.
struct Open<'d>(Option<Tx<'d>>);

impl<'d> Open<'d> {
    fn tx(&mut self) -> &mut Tx<'d> {
        self.0.as_mut().expect("it is open")
    }

    fn commit<R>(mut self, output: R, ticket: &mut Ticket<'_>) -> Ended<'d, R> {
        let said = self.tx().shared.core.ask(Ask::Commit);
        if said.code != Said::DONE {
            drop(output);
            let Stopped::Failed(failure) = stopped(said) else { unreachable!("a commit does not wait") };
            return Ended::Failed(failure);
        }
        let mut tx = self.0.take().expect("it is open");
        let taken = tx.journal.commit(&mut tx.shared);
        for place in 0..tx.shared.notes.changes.len() {
            let (operation, channel) = tx.shared.notes.changes[place];
            tx.shared.changed(operation, channel);
        }
        ticket.end(&mut tx.shared, true);
        tx.assert_nothing_lost();
        Ended::Committed(output, taken)
    }

    fn retry<R>(mut self) -> Ended<'d, R> {
        let mut tx = self.0.take().expect("it is open");
        roll_back(&mut tx);
        tx.assert_nothing_lost();
        match tx.failure {
            Some(failure) => Ended::Failed(failure),
            None => {
                let wishes = Wishes::any_change(tx.shared.notes.channels().iter().copied());
                Ended::Retry(tx.shared, wishes)
            }
        }
    }
}

impl Drop for Open<'_> {
    fn drop(&mut self) {
        if let Some(tx) = &mut self.0 {
            roll_back(tx);
        }
    }
}

/// Undoes all that a transaction did.
fn roll_back(tx: &mut Tx<'_>) {
    tx.shared.core.ask(Ask::RollBack);
    tx.journal.roll_back(0, &mut tx.shared);
}
