//! The jobs of threads.sh and of jobs.sh by what a Rust user would pick without transactions: a mutex around a
//! `VecDeque`, and condvars. `threads JOB ITEMS` prints how many nanoseconds a write, a read or a move takes, for the
//! jobs of threads.sh; `threads jobs JOB TRANSACTIONS` does so for those of jobs.sh, where all threads together make
//! about so many of them.
use std::collections::VecDeque;
use std::sync::{Condvar, Mutex};
use std::thread;
use std::time::Instant;

/// A queue that waits where nothing is in it, and at its bound. To notify costs a call of the system even where nobody
/// waits, so each change wakes one thread at most, and without a bound nobody waits for room.
struct Queue {
    items: Mutex<VecDeque<u64>>,
    filled: Condvar,
    drained: Condvar,
    bound: usize,
}

impl Queue {
    fn new(bound: usize) -> Queue {
        Queue { items: Mutex::new(VecDeque::new()), filled: Condvar::new(), drained: Condvar::new(), bound }
    }

    fn write(&self, item: u64) {
        let items = self.items.lock().unwrap();
        self.drained.wait_while(items, |items| items.len() >= self.bound).unwrap().push_back(item);
        self.filled.notify_one();
    }

    fn read(&self) -> u64 {
        let items = self.items.lock().unwrap();
        let item = self.filled.wait_while(items, |items| items.is_empty()).unwrap().pop_front().unwrap();
        if self.bound < usize::MAX {
            self.drained.notify_one();
        }
        item
    }
}

/// Four threads write and four read.
fn handed_on(items: u64, bound: usize) -> u64 {
    let queue = Queue::new(bound);
    thread::scope(|scope| {
        for _ in 0..4 {
            scope.spawn(|| (0..items / 4).for_each(|item| queue.write(item)));
            scope.spawn(|| (0..items / 4).map(|_| queue.read()).sum::<u64>());
        }
    });
    2 * items
}

/// One thread writes each item to four queues, of which four threads read one each.
fn broadcast(items: u64) -> u64 {
    let queues = [(); 4].map(|()| Queue::new(usize::MAX));
    thread::scope(|scope| {
        scope.spawn(|| (0..items).for_each(|item| queues.iter().for_each(|queue| queue.write(item))));
        for queue in &queues {
            scope.spawn(move || (0..items).map(|_| queue.read()).sum::<u64>());
        }
    });
    5 * items
}

/// Threads that each write an item to a queue of their own and read it.
fn apart(threads: u64, items: u64) -> u64 {
    thread::scope(|scope| {
        for _ in 0..threads {
            scope.spawn(|| {
                let queue = Queue::new(usize::MAX);
                (0..items).map(|item| (queue.write(item), queue.read()).1).sum::<u64>()
            });
        }
    });
    2 * threads * items
}

/// Four threads move eight items between two queues, each under a mutex of its own.
fn ring(moves: u64) -> u64 {
    let (one, other) = (Mutex::new((0..8).collect::<VecDeque<u64>>()), Mutex::new(VecDeque::new()));
    let moved = |there: bool| {
        let (mut one, mut other) = (one.lock().unwrap(), other.lock().unwrap());
        let (from, to) = if there { (&mut *one, &mut *other) } else { (&mut *other, &mut *one) };
        from.pop_front().map(|item| to.push_back(item)).is_some()
    };
    thread::scope(|scope| {
        for number in 0..4 {
            let moved = &moved;
            scope.spawn(move || {
                for _ in 0..moves / 4 {
                    while !moved(number % 2 == 0) {
                        thread::yield_now();
                    }
                }
            });
        }
    });
    moves
}

/// As `ring`, where a thread that finds nothing to move waits on a condvar. Both queues are under one mutex.
fn waiting_ring(moves: u64) -> u64 {
    let both = Mutex::new([(0..8).collect::<VecDeque<u64>>(), VecDeque::new()]);
    let filled = [Condvar::new(), Condvar::new()];
    let mover = |from: usize| {
        for _ in 0..moves / 4 {
            let queues = both.lock().unwrap();
            let mut queues = filled[from].wait_while(queues, |queues| queues[from].is_empty()).unwrap();
            let item = queues[from].pop_front().unwrap();
            queues[1 - from].push_back(item);
            filled[1 - from].notify_one();
        }
    };
    thread::scope(|scope| {
        for number in 0..4 {
            let mover = &mover;
            scope.spawn(move || mover(number % 2));
        }
    });
    moves / 4 * 4
}

/// One thread writes each item to three queues, of which three threads read one each.
fn broadcast_to_three(items: u64) -> u64 {
    let queues = [(); 3].map(|()| Queue::new(usize::MAX));
    thread::scope(|scope| {
        scope.spawn(|| (0..items).for_each(|item| queues.iter().for_each(|queue| queue.write(item))));
        for queue in &queues {
            scope.spawn(move || (0..items).map(|_| queue.read()).sum::<u64>());
        }
    });
    4 * items
}

/// One thread writes to two queues in turn, one moves what comes on either to a third, and one reads that.
fn choice(pairs: u64) -> u64 {
    let sources = Mutex::new([VecDeque::new(), VecDeque::new()]);
    let filled = Condvar::new();
    let merged = Queue::new(usize::MAX);
    thread::scope(|scope| {
        scope.spawn(|| {
            for item in 0..2 * pairs {
                sources.lock().unwrap()[(item % 2) as usize].push_back(item);
                filled.notify_one();
            }
        });
        scope.spawn(|| {
            for _ in 0..2 * pairs {
                let held = sources.lock().unwrap();
                let mut held = filled.wait_while(held, |held| held.iter().all(VecDeque::is_empty)).unwrap();
                let [one, other] = &mut *held;
                // Its lock is kept until the item stands in the third queue: a move is one moment.
                merged.write(one.pop_front().or_else(|| other.pop_front()).unwrap());
            }
        });
        scope.spawn(|| (0..2 * pairs).map(|_| merged.read()).sum::<u64>());
    });
    6 * pairs
}

/// Pairs of threads that hand an item to and fro between two queues of their own.
fn ping_pong(pairs: u64, rounds: u64) -> u64 {
    let queues: Vec<[Queue; 2]> = (0..pairs).map(|_| [(); 2].map(|()| Queue::new(usize::MAX))).collect();
    thread::scope(|scope| {
        for [there, back] in &queues {
            scope.spawn(move || (0..rounds).map(|item| (there.write(item), back.read()).1).sum::<u64>());
            scope.spawn(move || (0..rounds).for_each(|_| back.write(there.read())));
        }
    });
    4 * pairs * rounds
}

/// A job of threads.sh. Answers how many operations it made.
fn by_items(job: &str, items: u64) -> u64 {
    match job {
        "pipeline" => handed_on(items, usize::MAX),
        "bounded" => handed_on(items, 1024),
        "broadcast" => broadcast(items),
        "one" => apart(1, items),
        "two" => apart(2, items),
        "ring" => ring(items),
        _ => panic!("no such job"),
    }
}

/// A job of jobs.sh. Answers how many transactions it made.
fn by_transactions(job: &str, transactions: u64) -> u64 {
    match job {
        "solo" => apart(1, transactions / 2),
        "two" => apart(2, transactions / 4),
        "four" => apart(4, transactions / 8),
        "pipeline" => handed_on(transactions / 8 * 4, usize::MAX),
        "bounded" => handed_on(transactions / 8 * 4, 1024),
        "ring" => waiting_ring(transactions),
        "broadcast" => broadcast_to_three(transactions / 4),
        "choice" => choice(transactions / 6),
        "pingpong" => ping_pong(1, transactions / 4),
        "pingpongs" => ping_pong(4, transactions / 16),
        _ => panic!("no such job"),
    }
}

fn main() {
    let words: Vec<String> = std::env::args().skip(1).collect();
    let words: Vec<&str> = words.iter().map(String::as_str).collect();
    let began = Instant::now();
    let operations = match words[..] {
        ["jobs", job, count] => by_transactions(job, count.parse().unwrap()),
        [job, count] => by_items(job, count.parse().unwrap()),
        _ => panic!("threads [jobs] JOB COUNT"),
    };
    println!("{}", began.elapsed().as_nanos() / u128::from(operations.max(1)));
}
