use super::attempt::attempt;
use super::ended::Ended;
use super::{Output, Retry, Tx};
use crate::domain::Domain;
use crate::error::{AtomicallyTimeoutError, Cause, Failure, TryAtomicallyError};
use crate::guard::Guard;
use crate::inner::Inner;
use crate::stopped::Stopped;
use crate::ticket::Ticket;
use crate::waiting::{Sleeper, Until, Wishes};
use std::time::Duration;

impl Domain {
    /// Runs a closure as one transaction, which decides as it goes. Returns what the closure returns, each
    /// [`Item`](crate::Item) in it as its value.
    ///
    /// If the closure returns `Retry`, all that it did is rolled back, and it runs again once one of the channels that
    /// it was on has changed. If it panics, all that it did is rolled back, and the panic goes on. The closure runs
    /// under the domain's lock: all other calls of the domain wait for it, so it must be short, and must not block.
    ///
    /// Fails if allocation fails. Blocks until the closure returns `Ok`.
    ///
    /// # Panics
    ///
    /// If the closure calls the domain other than by its [`Tx`], if an item leaves the closure and is rolled back, or
    /// if the closure retries without a step on any channel. In the last case the other two functions return `Retry`
    /// or `Timeout`.
    ///
    /// ```
    /// use yalwythen::Domain;
    ///
    /// let domain = Domain::new();
    /// let ((submit, orders), (audit, audits), (bill, _bills)) = (domain.queue(), domain.queue(), domain.queue());
    /// submit.send(1200)?;
    /// // A large order goes to the audit, any other one to billing.
    /// let total = domain.atomically(|tx| {
    ///     let order = tx.read(&orders)?;
    ///     let total = *order;
    ///     if total > 1000 { tx.write(&audit, order)? } else { tx.write(&bill, order)? }
    ///     Ok(total)
    /// })?;
    /// assert_eq!((total, audits.recv()?), (1200, 1200));
    /// # Ok::<(), Box<dyn std::error::Error>>(())
    /// ```
    pub fn atomically<'d, R: Output>(
        &'d self,
        closure: impl FnMut(&mut Tx<'d>) -> Result<R, Retry>,
    ) -> Result<R::Out, Failure> {
        self.atomically_until(closure, Until::Never).map_err(|stopped| match stopped {
            Stopped::Failed(failure) => failure,
            Stopped::Retry(_) => unreachable!("it waits for ever"),
        })
    }

    /// Runs a closure as one transaction, once. See [`atomically`](Domain::atomically), also for panics.
    ///
    /// Fails if the closure returns `Retry` or if allocation fails. Blocks only while other threads have the domain's
    /// lock.
    pub fn try_atomically<'d, R: Output>(
        &'d self,
        closure: impl FnMut(&mut Tx<'d>) -> Result<R, Retry>,
    ) -> Result<R::Out, TryAtomicallyError> {
        self.atomically_until(closure, Until::Now).map_err(|stopped| match stopped {
            Stopped::Failed(failure) => TryAtomicallyError::Failed(failure),
            Stopped::Retry(_) => TryAtomicallyError::Retry,
        })
    }

    /// Runs a closure as one transaction. See [`atomically`](Domain::atomically), also for panics.
    ///
    /// Fails if the closure returns `Retry` when the time is over, or if allocation fails. Blocks until the closure
    /// returns `Ok`, at most for this time.
    pub fn atomically_timeout<'d, R: Output>(
        &'d self,
        closure: impl FnMut(&mut Tx<'d>) -> Result<R, Retry>,
        timeout: Duration,
    ) -> Result<R::Out, AtomicallyTimeoutError> {
        self.atomically_until(closure, Until::after(timeout)).map_err(|stopped| match stopped {
            Stopped::Failed(failure) => AtomicallyTimeoutError::Failed(failure),
            Stopped::Retry(_) => AtomicallyTimeoutError::Timeout,
        })
    }

    fn atomically_until<'d, R: Output>(
        &'d self,
        mut closure: impl FnMut(&mut Tx<'d>) -> Result<R, Retry>,
        until: Until,
    ) -> Result<R::Out, Stopped> {
        let inner = &self.inner;
        let mut ticket = Ticket::new(inner);
        loop {
            let (mut shared, wishes) = match attempt(inner, lock(inner, until), &mut ticket, &mut closure) {
                Ended::Committed(output, taken) => {
                    // What the transaction has taken is the output's, or is dropped.
                    drop(taken);
                    return Ok(output.output());
                }
                Ended::Failed(failure) => return Err(Stopped::Failed(failure)),
                Ended::Retry(shared, wishes) => (shared, wishes),
            };
            if until.is_over() {
                ticket.end(&mut shared, false);
                return Err(Stopped::Retry(Cause::Empty));
            }
            let may_end = wishes != Wishes::default() || matches!(until, Until::Time(_));
            assert!(may_end, "an `atomically` closure retries without a step on any channel: it would wait for ever");
            let sleeper = Sleeper::current();
            ticket.wait(&mut shared, wishes, &sleeper.prepare());
            drop(shared);
            sleeper.rest(until);
        }
    }
}

fn lock(inner: &Inner, until: Until) -> Guard<'_> {
    if matches!(until, Until::Now) { inner.lock_without_naps() } else { inner.lock() }
}
