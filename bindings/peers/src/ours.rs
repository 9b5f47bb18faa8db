//! The jobs by Yalwythen.

use crate::job::{Job, in_cast, in_pairs, in_ring};
use std::hint::black_box;
use std::sync::Arc;
use yalwythen::kinds::QueueKind;
use yalwythen::{Domain, Receiver, Sender};

/// Passes the items through a queue of any kind.
fn passed<K: QueueKind>(job: &Job, (tx, rx): (Sender<u64, K>, Receiver<u64, K>)) -> u64 {
    in_pairs(job, || (|item| tx.send(item).unwrap(), || rx.recv().unwrap()))
}

/// Runs a job. Returns how many transactions it had.
pub fn run(job: &Job) -> u64 {
    let domain = &Domain::new();
    match job.name {
        "solo" => {
            let (tx, rx) = domain.queue();
            for item in 0..job.items {
                tx.send(item).unwrap();
                black_box(rx.recv().unwrap());
            }
            2 * job.items
        }
        "ring" => {
            let ends = [domain.queue(), domain.queue()];
            (0..8_u64).for_each(|item| ends[0].0.send(item).unwrap());
            in_ring(job, |from, to| {
                let (rx, tx) = (&ends[from].1, &ends[to].0);
                move || domain.run(rx.pass_on(tx)).unwrap()
            })
        }
        "cast" => {
            let (tx, rx) = domain.broadcast();
            let readers = [rx.clone(), rx.clone(), rx].map(|rx| move || *rx.recv().unwrap());
            in_cast(job, |item| tx.send(Arc::new(item)).unwrap(), readers)
        }
        _ => match job.bound {
            None => passed(job, domain.queue()),
            Some(bound) => passed(job, domain.bounded(bound as usize).unwrap()),
        },
    }
}

/// One thread moves an item between two queues by lists of steps.
pub fn move_by_steps(count: u64) -> u64 {
    let domain = Domain::new();
    let ends = [domain.queue(), domain.queue()];
    ends[0].0.send(7_u64).unwrap();
    for number in 0..count as usize {
        domain.run(ends[number % 2].1.pass_on(&ends[1 - number % 2].0)).unwrap();
    }
    count
}

/// The same by closures.
pub fn move_by_closures(count: u64) -> u64 {
    let domain = Domain::new();
    let ends = [domain.queue(), domain.queue()];
    ends[0].0.send(7_u64).unwrap();
    for number in 0..count as usize {
        let (rx, tx) = (&ends[number % 2].1, &ends[1 - number % 2].0);
        domain
            .atomically(|step| {
                let item = step.read(rx)?;
                step.write(tx, item)
            })
            .unwrap();
    }
    count
}
