//! The lock of a domain.
//!
//! A transaction holds the lock for some hundred nanoseconds. What costs most is that the lock goes from thread to
//! thread: the domain's memory moves to another processor, and a thread that sleeps on the lock must be woken. So a
//! thread that finds the lock taken tries again once a transaction should be over, and once more later. Then it naps,
//! which no other thread has to know of. Meanwhile the thread with the lock runs many transactions in a row. More
//! attempts would interrupt it more often, and take more time in all.

use std::hint;
use std::sync::{Mutex, MutexGuard, PoisonError, TryLockError};
use std::thread;
use std::time::Duration;

/// The pauses before each of the attempts between two naps, each of some nanoseconds.
const PAUSES: [u32; 2] = [16, 256];

/// The most naps. A thread that still has no lock then blocks until the lock is free.
const NAPS: u32 = 10;

/// The shortest sleep of the system: about 60 µs on Linux.
const NAP: Duration = Duration::from_nanos(1);

/// A mutex that ignores poisoning.
#[derive(Debug)]
pub struct Lock<T>(Mutex<T>);

impl<T> Lock<T> {
    pub fn new(value: T) -> Lock<T> {
        Lock(Mutex::new(value))
    }

    /// Takes the lock if it is free.
    #[inline]
    pub fn try_take(&self) -> Option<MutexGuard<'_, T>> {
        match self.0.try_lock() {
            Ok(guard) => Some(guard),
            Err(TryLockError::Poisoned(guard)) => Some(guard.into_inner()),
            Err(TryLockError::WouldBlock) => None,
        }
    }

    /// Waits for the lock, and naps meanwhile.
    pub fn take(&self) -> MutexGuard<'_, T> {
        for _ in 0..NAPS {
            if let Some(guard) = self.try_for_a_while() {
                return guard;
            }
            thread::sleep(NAP);
        }
        self.take_without_naps()
    }

    /// Waits for the lock. For calls that must not sleep longer than the lock is held.
    pub fn take_without_naps(&self) -> MutexGuard<'_, T> {
        self.0.lock().unwrap_or_else(PoisonError::into_inner)
    }

    fn try_for_a_while(&self) -> Option<MutexGuard<'_, T>> {
        PAUSES.into_iter().find_map(|pauses| {
            (0..pauses).for_each(|_| hint::spin_loop());
            self.try_take()
        })
    }
}

#[cfg(test)]
mod tests {
    use super::*;
    use std::panic::{AssertUnwindSafe, catch_unwind};
    use std::time::Instant;

    #[test]
    fn one_thread_has_it_at_a_time() {
        let count = Lock::new(0u64);
        thread::scope(|scope| {
            for _ in 0..8 {
                scope.spawn(|| {
                    for _ in 0..20_000 {
                        let mut count = count.take();
                        let before = *count;
                        hint::spin_loop();
                        *count = before + 1;
                    }
                });
            }
        });
        assert_eq!(*count.take(), 160_000);
    }

    #[test]
    fn a_thread_that_finds_it_taken_gets_it_later() {
        let lock = Lock::new(());
        let held = Duration::from_millis(50);
        let (first, began) = (lock.take(), Instant::now());
        thread::scope(|scope| {
            let second = scope.spawn(|| {
                let _second = lock.take();
                began.elapsed()
            });
            thread::sleep(held);
            drop(first);
            assert!(second.join().unwrap() >= held);
        });
    }

    #[test]
    fn it_outlives_a_panic() {
        let lock = Lock::new(7);
        let panicked = catch_unwind(AssertUnwindSafe(|| {
            let mut guard = lock.take();
            *guard = 8;
            panic!("on purpose");
        }));
        assert!(panicked.is_err());
        assert_eq!(*lock.take(), 8);
        assert_eq!(*lock.take_without_naps(), 8);
    }
}
