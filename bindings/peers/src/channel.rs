//! The jobs by crossbeam-channel. It has no transactions, so it moves an item between queues in two steps, and it has
//! no broadcast.

use crate::job::{Job, in_pairs, in_ring};
use crossbeam_channel as crossbeam;
use std::hint::black_box;

/// Runs a job. Returns how many sends and receives it had, or `None` if crossbeam-channel has nothing of the kind.
pub fn run(job: &Job) -> Option<u64> {
    let new = |bound: Option<u64>| match bound {
        None => crossbeam::unbounded(),
        Some(bound) => crossbeam::bounded(bound as usize),
    };
    let (write, read) = new(job.bound);
    Some(match job.name {
        "solo" => {
            for item in 0..job.items {
                write.send(item).unwrap();
                black_box(read.recv().unwrap());
            }
            2 * job.items
        }
        "ring" => {
            let ends = [(write, read), new(None)];
            (0..8).for_each(|item| ends[0].0.send(item).unwrap());
            in_ring(job, |from, to| {
                let (read, write) = (&ends[from].1, &ends[to].0);
                move || write.send(read.recv().unwrap()).unwrap()
            })
        }
        "cast" => return None,
        _ => in_pairs(job, || (|item| write.send(item).unwrap(), || read.recv().unwrap())),
    })
}
