//! The jobs by a mutex and a condition variable around a `VecDeque`.

use crate::deques::Deques;
use crate::job::{Job, in_cast, in_pairs, in_ring};
use std::collections::VecDeque;
use std::hint::black_box;
use std::sync::{Condvar, Mutex};

struct Deque {
    items: Mutex<VecDeque<u64>>,
    changed: Condvar,
    bound: usize,
}

impl Deque {
    fn new(bound: usize) -> Deque {
        Deque { items: Mutex::new(VecDeque::new()), changed: Condvar::new(), bound }
    }

    fn write(&self, item: u64) {
        let items = self.items.lock().unwrap();
        self.changed.wait_while(items, |items| items.len() >= self.bound).unwrap().push_back(item);
        self.changed.notify_all();
    }

    fn read(&self) -> u64 {
        let items = self.items.lock().unwrap();
        let item = self.changed.wait_while(items, |items| items.is_empty()).unwrap().pop_front().unwrap();
        self.changed.notify_all();
        item
    }
}

/// Runs a job. Returns how many transactions it had.
pub fn run(job: &Job) -> u64 {
    let queue = Deque::new(job.bound.map_or(usize::MAX, |bound| bound as usize));
    match job.name {
        "solo" => {
            for item in 0..job.items {
                queue.write(item);
                black_box(queue.read());
            }
            2 * job.items
        }
        "ring" => {
            let queues = Mutex::new([(0..8).collect::<VecDeque<u64>>(), VecDeque::new()]);
            let (queues, changed) = (&queues, &Condvar::new());
            in_ring(job, |from, to| {
                move || {
                    let queues = queues.lock().unwrap();
                    let mut queues = changed.wait_while(queues, |queues| queues[from].is_empty()).unwrap();
                    let item = queues[from].pop_front().unwrap();
                    queues[to].push_back(item);
                    changed.notify_all();
                }
            })
        }
        "cast" => {
            let queues = &Deques::new();
            in_cast(job, |item| queues.write(item), [0, 1, 2].map(|reader| move || queues.read(reader)))
        }
        _ => in_pairs(job, || (|item| queue.write(item), || queue.read())),
    }
}
