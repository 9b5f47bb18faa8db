//! What is measured.

use std::thread;

/// How many items pass in most jobs.
const ITEMS: u64 = 400_000;

/// How many threads read each item of a broadcast.
pub const READERS: usize = 3;

/// How many threads write and read, a bound, and how many items pass.
#[derive(Clone, Copy)]
pub struct Job {
    /// The name that the program of stm knows.
    pub name: &'static str,
    pub words: &'static str,
    pub pairs: u64,
    pub bound: Option<u64>,
    pub items: u64,
}

pub const JOBS: [Job; 6] = [
    Job { name: "solo", words: "one thread writes and reads", pairs: 0, bound: None, items: ITEMS },
    Job { name: "pair", words: "one writes, one reads", pairs: 1, bound: None, items: ITEMS },
    Job { name: "pairs", words: "four write, four read", pairs: 4, bound: None, items: ITEMS },
    Job { name: "bounded", words: "the same with a bound of 64", pairs: 4, bound: Some(64), items: ITEMS / 4 },
    Job { name: "ring", words: "four move eight items between two queues", pairs: 0, bound: None, items: ITEMS / 4 },
    Job { name: "cast", words: "one writes, three read each item", pairs: 0, bound: None, items: ITEMS / 4 },
];

/// Runs a writer and a reader for each pair.
pub fn in_pairs<W: FnMut(u64) + Send, R: FnMut() -> u64 + Send>(job: &Job, mut ends: impl FnMut() -> (W, R)) -> u64 {
    let each = job.items / job.pairs;
    thread::scope(|scope| {
        for _ in 0..job.pairs {
            let (mut write, mut read) = ends();
            scope.spawn(move || (0..each).for_each(&mut write));
            scope.spawn(move || (0..each).map(|_| read()).sum::<u64>());
        }
    });
    2 * job.items
}

/// Four threads each move the same number of items, two of them the other way.
pub fn in_ring<M: FnMut() + Send>(job: &Job, mut mover: impl FnMut(usize, usize) -> M) -> u64 {
    let each = job.items / 4;
    thread::scope(|scope| {
        for (from, to) in [(0, 1), (1, 0), (0, 1), (1, 0)] {
            let mut move_one = mover(from, to);
            scope.spawn(move || (0..each).for_each(|_| move_one()));
        }
    });
    job.items
}

/// One thread writes, and each of three reads all of it.
pub fn in_cast<R: FnMut() -> u64 + Send>(job: &Job, write: impl FnMut(u64) + Send, readers: [R; READERS]) -> u64 {
    thread::scope(|scope| {
        scope.spawn(move || (0..job.items).for_each(write));
        for mut read in readers {
            scope.spawn(move || (0..job.items).map(|_| read()).sum::<u64>());
        }
    });
    (1 + READERS as u64) * job.items
}
