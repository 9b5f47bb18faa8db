//! A domain under its lock.

use crate::attempt::Attempt;
use crate::guard::Guard;
use crate::lock::Lock;
use crate::shared::Shared;
use crate::stopped::Stopped;
use crate::thread_id;
use crate::ticket::Ticket;
use crate::waiting::{Sleeper, Until};
use std::sync::atomic::{AtomicBool, AtomicUsize, Ordering::Relaxed};
use std::sync::{Mutex, PoisonError};
use std::task::{Poll, Waker};

/// What is done once the lock is released next.
type Late = Box<dyn FnOnce(&mut Shared) + Send>;

/// What all ends of a domain share.
pub struct Inner {
    pub(crate) lock: Lock<Shared>,
    /// The thread that has the lock, or 0.
    pub(crate) owner: AtomicUsize,
    /// What the thread with the lock has put off.
    late: Mutex<Vec<Late>>,
    has_late: AtomicBool,
    pub(crate) records: bool,
}

impl Inner {
    pub fn new(shared: Shared, records: bool) -> Inner {
        let (lock, owner) = (Lock::new(shared), AtomicUsize::new(0));
        Inner { lock, owner, late: Mutex::default(), has_late: AtomicBool::new(false), records }
    }

    /// Waits for the lock.
    ///
    /// # Panics
    ///
    /// If this thread has it.
    #[inline]
    pub fn lock(&self) -> Guard<'_> {
        Guard::new(self, self.lock.try_take().unwrap_or_else(|| self.others_lock().take()))
    }

    /// Waits for the lock no longer than others have it.
    ///
    /// # Panics
    ///
    /// If this thread has it.
    #[inline]
    pub fn lock_without_naps(&self) -> Guard<'_> {
        Guard::new(self, self.lock.try_take().unwrap_or_else(|| self.others_lock().take_without_naps()))
    }

    /// Does something under the lock now, or, if this thread has the lock, before it is released.
    pub fn soon(&self, action: impl FnOnce(&mut Shared) + Send + 'static) {
        if self.owner.load(Relaxed) == thread_id::current() {
            self.late.lock().unwrap_or_else(PoisonError::into_inner).push(Box::new(action));
            self.has_late.store(true, Relaxed);
        } else {
            action(&mut self.lock());
        }
    }

    /// Whether something was put off.
    #[inline]
    pub(crate) fn has_late(&self) -> bool {
        self.has_late.load(Relaxed)
    }

    /// Does what was put off.
    pub(crate) fn do_late(&self, shared: &mut Shared) {
        // Only the thread with the lock sets it.
        while self.has_late() {
            self.has_late.store(false, Relaxed);
            let late = std::mem::take(&mut *self.late.lock().unwrap_or_else(PoisonError::into_inner));
            late.into_iter().for_each(|action| action(shared));
        }
    }

    /// Tries until it need not wait, or until the time.
    #[inline]
    pub fn run<A: Attempt>(&self, attempt: &mut A, until: Until) -> Result<A::Out, Stopped> {
        let mut shared = match until {
            Until::Now => self.lock_without_naps(),
            _ => self.lock(),
        };
        match attempt.attempt(&mut shared) {
            Err(Stopped::Retry(_)) if !until.is_over() => self.wait(shared, attempt, until),
            tried => tried,
        }
    }

    /// Goes on after an attempt that must wait.
    #[cold]
    fn wait<'a, A: Attempt>(&'a self, mut shared: Guard<'a>, attempt: &mut A, until: Until) -> Result<A::Out, Stopped> {
        let mut ticket = Ticket::new(self);
        let sleeper = Sleeper::current();
        loop {
            let wishes = attempt.wishes(&shared);
            ticket.wait(&mut shared, wishes, &sleeper.prepare());
            drop(shared);
            sleeper.rest(until);
            shared = self.lock();
            let tried = attempt.attempt(&mut shared);
            let must_wait = matches!(tried, Err(Stopped::Retry(_)));
            if !must_wait || until.is_over() {
                ticket.end(&mut shared, tried.is_ok());
                return tried;
            }
        }
    }

    /// Tries once, and has the waker called when another try may succeed.
    pub fn poll<A: Attempt>(
        &self,
        attempt: &mut A,
        ticket: &mut Ticket<'_>,
        waker: &Waker,
    ) -> Poll<Result<A::Out, Stopped>> {
        let mut shared = self.lock_without_naps();
        let tried = attempt.attempt(&mut shared);
        if matches!(tried, Err(Stopped::Retry(_))) {
            let wishes = attempt.wishes(&shared);
            ticket.wait(&mut shared, wishes, waker);
            return Poll::Pending;
        }
        ticket.end(&mut shared, tried.is_ok());
        Poll::Ready(tried)
    }

    /// The lock, which another thread has.
    #[cold]
    fn others_lock(&self) -> &Lock<Shared> {
        assert!(
            self.owner.load(Relaxed) != thread_id::current(),
            "a domain was called inside one of its own `atomically` closures: use the closure's `Tx`"
        );
        &self.lock
    }
}
