//! A scheduler with priorities: three queues, the highest first. All jobs of a batch appear at once, and all queues
//! close at once.

use std::thread;
use yalwythen::kinds::Closable;
use yalwythen::{Domain, Receiver, RunError};

type Job = Box<dyn FnOnce() -> String + Send>;

fn run(domain: &Domain, ranks: [Receiver<Job, Closable>; 3]) -> Result<Vec<String>, RunError> {
    let (mut done, [high, middle, low]) = (Vec::new(), &ranks);
    // The highest rank that has a job; `None` once the queues are closed and the highest one is empty.
    let next = || domain.select().on(high.read(), |job| job).on(middle.read(), |job| job).on(low.read(), |job| job);
    while let Some(job) = next().wait()? {
        done.push(job());
    }
    // What is left, each rank to its own end.
    done.extend(ranks.iter().flatten().map(|job| job()));
    Ok(done)
}

fn main() -> Result<(), RunError> {
    let domain = Domain::new();
    let [(high, h), (middle, m), (low, l)] = [domain.closable(), domain.closable(), domain.closable()];
    let runner = {
        let domain = domain.clone();
        thread::spawn(move || run(&domain, [h, m, l]))
    };
    let job = |name: &'static str| -> Job { Box::new(move || name.to_owned()) };
    let (sweep, fire) = (low.write(job("sweep the floor")), high.write(job("put out the fire")));
    let (letters, help) = (middle.write(job("answer letters")), high.write(job("call for help")));
    let _written = domain.run((sweep, fire, letters, help))?;
    domain.run((high.closing(), middle.closing(), low.closing()))?;
    for name in runner.join().expect("no panic")? {
        println!("{name}");
    }
    Ok(())
}
