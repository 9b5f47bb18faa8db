//! What a transaction costs from Rust threads, compared with a mutex and a condition variable around a `VecDeque`,
//! crossbeam's channels and GHC's stm, whose program the first argument names. Prints nanoseconds of processor time per
//! transaction, over all threads, and then by the clock: the best of nine runs of each, which take turns, and `-` for
//! what was not run.
//!
//! `peers --only NAME COUNT` runs one job by Yalwythen with so many items, or `steps` or `closures`, for callgrind.

mod channel;
mod cost;
mod deque;
mod deques;
mod job;
mod ours;

use cost::{Cost, NONE, cell, least, measure, of_stm};
use job::{JOBS, Job};

const RUNS: usize = 9;

/// How many items are moved by lists of steps and by closures.
const MOVES: u64 = 400_000;

/// The best of several runs of a job by each.
fn best_of(job: &Job, program: Option<&str>) -> [Cost; 4] {
    let mut best = [NONE; 4];
    for _ in 0..RUNS {
        let by_stm = program.map_or(NONE, |program| of_stm(program, job));
        let by_channel = measure(|| channel::run(job));
        let now = [measure(|| Some(ours::run(job))), measure(|| Some(deque::run(job))), by_channel, by_stm];
        best.iter_mut().zip(now).for_each(|(best, now)| *best = least(*best, now));
    }
    best
}

/// Prints the costs of all jobs.
fn print_jobs(program: Option<&str>) {
    let best = JOBS.each_ref().map(|job| best_of(job, program));
    for (place, what) in ["Processor time", "By the clock"].iter().enumerate() {
        println!("| {what}, ns | Yalwythen | `Mutex<VecDeque>` | Ratio | crossbeam-channel | GHC's stm |");
        println!("|---|---|---|---|---|---|");
        for (job, best) in JOBS.iter().zip(&best) {
            let costs = best.map(|cost| cost[place]);
            let [ours, deque, channel, stm] = costs.map(cell);
            println!("| {} | {ours} | {deque} | {:.2} | {channel} | {stm} |", job.words, costs[0] / costs[1]);
        }
        println!();
    }
}

/// Prints what a closure costs, compared with a list of steps.
fn print_closures() {
    let mut best = [NONE; 2];
    for _ in 0..RUNS {
        let now = [ours::move_by_steps, ours::move_by_closures].map(|moved| measure(|| Some(moved(MOVES))));
        best.iter_mut().zip(now).for_each(|(best, now)| *best = least(*best, now));
    }
    let [steps, closures] = best.map(|cost| cost[0]);
    println!("| Processor time, ns | `run` | `atomically` | Ratio |");
    println!("|---|---|---|---|");
    println!("| one thread moves an item | {steps:.0} | {closures:.0} | {:.2} |", closures / steps);
}

/// Runs one job by Yalwythen.
fn run_only(name: &str, count: u64) {
    match name {
        "steps" => ours::move_by_steps(count),
        "closures" => ours::move_by_closures(count),
        _ => {
            let job = JOBS.iter().find(|job| job.name == name).expect("the name of a job");
            ours::run(&Job { items: count, ..*job })
        }
    };
}

fn main() {
    let words: Vec<String> = std::env::args().skip(1).collect();
    match &words.iter().map(String::as_str).collect::<Vec<_>>()[..] {
        ["--only", name, count] => run_only(name, count.parse().expect("a number")),
        [] | [_] => {
            print_jobs(words.first().map(String::as_str));
            print_closures();
        }
        _ => eprintln!("usage: peers [PROGRAM] or peers --only NAME COUNT"),
    }
}
