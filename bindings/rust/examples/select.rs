//! A selection with a default: the urgent queue first, then the other one, or nothing. No thread waits.

use std::error::Error;
use yalwythen::kinds::Queue;
use yalwythen::{Domain, Receiver, RecvError, select};

fn next(urgent: &Receiver<String, Queue>, other: &Receiver<u32, Queue>) -> Result<String, RecvError> {
    Ok(select! {
        recv(urgent) -> word => format!("urgent: {}", word?),
        recv(other) -> number => format!("number {}", number?),
        default => "nothing".to_owned(),
    })
}

fn main() -> Result<(), Box<dyn Error>> {
    let domain = Domain::new();
    let ((urgent, urgents), (other, others)) = (domain.queue(), domain.queue());
    other.send(7)?;
    println!("{}", next(&urgents, &others)?);
    println!("{}", next(&urgents, &others)?);
    // Both are written, or none.
    domain.run((urgent.write("fire".to_owned()), other.write(9)))?;
    println!("{}", next(&urgents, &others)?);
    Ok(())
}
