//! What a job costs.

use crate::job::Job;
use std::process::Command;
use std::time::Instant;

unsafe extern "C" {
    // Microseconds of processor time that the program has used, on Linux.
    safe fn clock() -> i64;
}

/// Nanoseconds of processor time over all threads, and by the clock.
pub type Cost = [f64; 2];

/// What was not run costs this.
pub const NONE: Cost = [f64::INFINITY; 2];

/// The cost of each of the transactions that a function runs, if it runs any.
pub fn measure(job: impl FnOnce() -> Option<u64>) -> Cost {
    let (began, used) = (Instant::now(), clock());
    let Some(count) = job() else { return NONE };
    [(clock() - used) as f64 * 1000.0, began.elapsed().as_nanos() as f64].map(|cost| cost / count as f64)
}

/// The cost of a job in a program with GHC's stm.
pub fn of_stm(program: &str, job: &Job) -> Cost {
    let items = job.items.to_string();
    let said = Command::new(program).args([job.name, &items, "+RTS", "-N4"]).output().expect("the program of stm");
    assert!(said.status.success(), "{}", String::from_utf8_lossy(&said.stderr));
    let said = String::from_utf8(said.stdout).expect("two numbers");
    let mut numbers = said.split_whitespace().map(|number| number.parse().expect("a number"));
    [(); 2].map(|()| numbers.next().expect("two numbers"))
}

/// The least of each.
pub fn least(one: Cost, other: Cost) -> Cost {
    [one[0].min(other[0]), one[1].min(other[1])]
}

/// A cost in a table.
pub fn cell(cost: f64) -> String {
    if cost.is_finite() { format!("{cost:.0}") } else { "-".to_owned() }
}
