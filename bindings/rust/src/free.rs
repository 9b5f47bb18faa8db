//! Channels with a domain of their own.

use crate::domain::Domain;
use crate::error::BoundError;
use crate::kinds;
use crate::receiver::Receiver;
use crate::sender::Sender;
use crate::subscriber::Subscriber;
use std::sync::Arc;

/// Makes a queue without a bound that cannot be closed, in a domain of its own.
///
/// # Panics
///
/// If allocation fails.
///
/// ```
/// let (tx, rx) = yalwythen::queue();
/// tx.send(7).unwrap();
/// assert_eq!(rx.recv(), Ok(7));
/// ```
pub fn queue<T: Send + 'static>() -> (Sender<T, kinds::Queue>, Receiver<T, kinds::Queue>) {
    Domain::new().queue()
}

/// Makes a queue with a bound that cannot be closed, in a domain of its own.
///
/// Fails if the bound is over 65,535.
///
/// # Panics
///
/// If allocation fails.
///
/// ```
/// let (tx, rx) = yalwythen::bounded(1)?;
/// tx.send(7).unwrap();
/// assert!(tx.try_send(8).unwrap_err().is_full());
/// assert_eq!(rx.recv(), Ok(7));
/// # Ok::<(), yalwythen::BoundError>(())
/// ```
#[allow(clippy::type_complexity)]
pub fn bounded<T: Send + 'static>(
    bound: usize,
) -> Result<(Sender<T, kinds::Bounded>, Receiver<T, kinds::Bounded>), BoundError> {
    Domain::new().bounded(bound)
}

/// Makes a queue without a bound that can be closed, in a domain of its own.
///
/// # Panics
///
/// If allocation fails.
///
/// ```
/// let (tx, rx) = yalwythen::closable();
/// tx.send(7).unwrap();
/// drop(tx);
/// assert_eq!(rx.iter().collect::<Vec<i32>>(), [7]);
/// ```
pub fn closable<T: Send + 'static>() -> (Sender<T, kinds::Closable>, Receiver<T, kinds::Closable>) {
    Domain::new().closable()
}

/// Makes a queue with a bound that can be closed, in a domain of its own.
///
/// Fails if the bound is over 65,535.
///
/// # Panics
///
/// If allocation fails.
///
/// ```
/// let (tx, rx) = yalwythen::bounded_closable(16)?;
/// std::thread::spawn(move || (0..100).try_for_each(|number| tx.send(number)));
/// assert_eq!(rx.iter().count(), 100);
/// # Ok::<(), yalwythen::BoundError>(())
/// ```
#[allow(clippy::type_complexity)]
pub fn bounded_closable<T: Send + 'static>(
    bound: usize,
) -> Result<(Sender<T, kinds::BoundedClosable>, Receiver<T, kinds::BoundedClosable>), BoundError> {
    Domain::new().bounded_closable(bound)
}

/// Makes a broadcast that cannot be closed, in a domain of its own, with one subscriber.
///
/// # Panics
///
/// If allocation fails.
///
/// ```
/// let (tx, first) = yalwythen::broadcast();
/// let second = first.clone();
/// tx.send(std::sync::Arc::new("all")).unwrap();
/// assert_eq!((*first.recv().unwrap(), *second.recv().unwrap()), ("all", "all"));
/// ```
#[allow(clippy::type_complexity)]
pub fn broadcast<T: Send + Sync + 'static>() -> (Sender<Arc<T>, kinds::Broadcast>, Subscriber<T, kinds::Broadcast>) {
    Domain::new().broadcast()
}

/// Makes a broadcast that can be closed, in a domain of its own, with one subscriber.
///
/// # Panics
///
/// If allocation fails.
///
/// ```
/// let (tx, rx) = yalwythen::broadcast_closable();
/// tx.send(std::sync::Arc::new(7)).unwrap();
/// drop(tx);
/// assert_eq!(rx.iter().count(), 1);
/// ```
#[allow(clippy::type_complexity)]
pub fn broadcast_closable<T: Send + Sync + 'static>()
-> (Sender<Arc<T>, kinds::BroadcastClosable>, Subscriber<T, kinds::BroadcastClosable>) {
    Domain::new().broadcast_closable()
}
