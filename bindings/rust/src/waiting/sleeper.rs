use super::Until;
use std::hint;
use std::sync::Arc;
use std::sync::atomic::{AtomicU8, Ordering::SeqCst};
use std::task::{Wake, Waker};
use std::thread::{self, Thread};
use std::time::{Duration, Instant};

/// The number of looks before a thread yields, about two microseconds.
const LOOKS: u32 = 200;

/// The number of yields before a thread sleeps. To be woken from sleep takes the system longer than all this, and
/// takes as long from the thread that wakes.
const YIELDS: u32 = 15;

/// The thread was woken, or is not about to wait.
const AWAKE: u8 = 0;
/// The thread looks whether it was woken.
const LOOKING: u8 = 1;
/// The thread sleeps, and the system must wake it.
const ASLEEP: u8 = 2;

thread_local! {
    static MINE: Arc<Sleeper> = Arc::new(Sleeper::new());
}

/// A thread that waits, as a waker.
#[derive(Debug)]
pub struct Sleeper {
    state: AtomicU8,
    thread: Thread,
}

impl Sleeper {
    fn new() -> Sleeper {
        Sleeper { state: AtomicU8::new(AWAKE), thread: thread::current() }
    }

    /// The one of this thread, or, if that is in use or is gone since the thread ends, another one.
    pub fn current() -> Arc<Sleeper> {
        let mine = MINE.try_with(|mine| (Arc::strong_count(mine) == 1).then(|| Arc::clone(mine)));
        mine.ok().flatten().unwrap_or_else(|| Arc::new(Sleeper::new()))
    }

    /// Must be called before another thread can find the waker: each wake from then on is heard.
    pub fn prepare(self: &Arc<Self>) -> Waker {
        self.state.store(LOOKING, SeqCst);
        Waker::from(Arc::clone(self))
    }

    /// Waits until the thread is woken, or until the time. Returns at once if it was woken since `prepare`.
    pub fn rest(&self, until: Until) {
        for look in 0..LOOKS + YIELDS {
            if self.state.load(SeqCst) == AWAKE {
                return;
            }
            if look < LOOKS {
                hint::spin_loop();
            } else {
                thread::yield_now();
            }
        }
        if self.state.compare_exchange(LOOKING, ASLEEP, SeqCst, SeqCst).is_err() {
            return;
        }
        while self.state.load(SeqCst) == ASLEEP {
            match until {
                Until::Now => return,
                Until::Never => thread::park(),
                Until::Time(time) => match time.saturating_duration_since(Instant::now()) {
                    Duration::ZERO => return,
                    left => thread::park_timeout(left),
                },
            }
        }
    }
}

impl Wake for Sleeper {
    fn wake(self: Arc<Self>) {
        self.wake_by_ref();
    }

    fn wake_by_ref(self: &Arc<Self>) {
        if self.state.swap(AWAKE, SeqCst) == ASLEEP {
            self.thread.unpark();
        }
    }
}

#[cfg(test)]
mod tests {
    use super::*;
    use std::sync::atomic::AtomicU64;
    use std::sync::mpsc;

    #[test]
    fn a_thread_that_was_woken_before_it_rests_does_not_wait() {
        let sleeper = Sleeper::current();
        sleeper.prepare().wake();
        sleeper.rest(Until::Never);
    }

    #[test]
    fn a_thread_that_sleeps_is_woken() {
        let (send, receive) = mpsc::channel();
        let thread = thread::spawn(move || {
            let sleeper = Sleeper::current();
            send.send((Arc::clone(&sleeper), sleeper.prepare())).unwrap();
            sleeper.rest(Until::Never);
        });
        let (sleeper, waker) = receive.recv().unwrap();
        while sleeper.state.load(SeqCst) != ASLEEP {
            thread::yield_now();
        }
        assert!(!thread.is_finished());
        waker.wake();
        thread.join().unwrap();
    }

    #[test]
    fn no_thread_sleeps_past_its_time() {
        let (sleeper, most) = (Sleeper::current(), Duration::from_millis(20));
        let began = Instant::now();
        let waker = sleeper.prepare();
        sleeper.rest(Until::after(most));
        assert!(began.elapsed() >= most);
        // A wake that comes too late has no effect on the next rest.
        waker.wake();
        let began = Instant::now();
        sleeper.prepare();
        sleeper.rest(Until::after(most));
        assert!(began.elapsed() >= most);
    }

    #[test]
    fn each_of_many_rests_ends() {
        const ROUNDS: u64 = 20_000;
        let turn = AtomicU64::new(0);
        let (to_first, from_second) = mpsc::channel::<Waker>();
        let (to_second, from_first) = mpsc::channel::<Waker>();
        let ends = [(to_second, from_second, 0), (to_first, from_first, 1)];
        thread::scope(|scope| {
            for (to, from, me) in ends {
                let turn = &turn;
                scope.spawn(move || {
                    let sleeper = Sleeper::current();
                    to.send(sleeper.prepare()).unwrap();
                    let other = from.recv().unwrap();
                    for mine in (me..2 * ROUNDS).step_by(2) {
                        while turn.load(SeqCst) != mine {
                            sleeper.rest(Until::Never);
                        }
                        sleeper.prepare();
                        turn.store(mine + 1, SeqCst);
                        other.wake_by_ref();
                    }
                });
            }
        });
        assert_eq!(turn.into_inner(), 2 * ROUNDS);
    }
}
