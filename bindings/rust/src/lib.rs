//! Transactional channels for threads and tasks, over a proved core.
//!
//! The ends are those of other channel crates: [`Sender`] and [`Receiver`], owned, cloned and moved to threads. What is
//! different is that operations on several channels can run as one transaction: all of them or nothing.
//!
//! # Hello, world
//!
//! ```
//! let (tx, rx) = yalwythen::closable();
//! std::thread::spawn(move || tx.send("hello"));
//! assert_eq!(rx.recv(), Ok("hello"));
//! // The sender has gone, and with it the channel.
//! assert!(rx.recv().is_err());
//! ```
//!
//! # Kinds of channels
//!
//! | Made by | Ends | Bound | Can be closed |
//! |---|---|---|---|
//! | [`queue`] | [`Sender`], [`Receiver`] | | |
//! | [`bounded`] | [`Sender`], [`Receiver`] | yes | |
//! | [`closable`] | [`Sender`], [`Receiver`] | | yes |
//! | [`bounded_closable`] | [`Sender`], [`Receiver`] | yes | yes |
//! | [`broadcast`] | [`Sender`], [`Subscriber`] | | |
//! | [`broadcast_closable`] | [`Sender`], [`Subscriber`] | | yes |
//!
//! Each value of a queue goes to one receiver. Each value of a broadcast goes to every subscriber, as an `Arc`. The
//! kind is the second type parameter of an end ([`kinds`]): to close a channel that cannot be closed does not compile.
//! A bounded queue holds at most 65,535 values. A larger bound is a [`BoundError`].
//!
//! ```
//! use std::sync::Arc;
//!
//! let (tx, first) = yalwythen::broadcast_closable();
//! let second = first.clone();
//! tx.send(Arc::new(7)).unwrap();
//! assert_eq!((*first.recv().unwrap(), *second.recv().unwrap()), (7, 7));
//! ```
//!
//! # Closing
//!
//! A channel that can be closed is closed when its last sender is dropped, also in a panic; when its last receiver is
//! dropped, if it is a queue; or by [`Sender::close`]. What is in it can still be read. A loop over a receiver ends
//! once the channel is closed and empty. A value that was not sent comes back in the error.
//!
//! ```
//! use yalwythen::SendError;
//!
//! let (tx, rx) = yalwythen::bounded_closable(16)?;
//! let reader = std::thread::spawn(move || rx.iter().take(2).count());
//! while tx.send(String::from("again")).is_ok() {}
//! assert_eq!(reader.join().unwrap(), 2);
//! let Err(SendError::Closed(value)) = tx.send(String::from("late")) else { panic!() };
//! assert_eq!(value, "late");
//! # Ok::<(), yalwythen::BoundError>(())
//! ```
//!
//! A queue that cannot be closed has no end: a receiver that waits when all senders have gone waits for ever, and so
//! does a sender to a full queue when all receivers have gone. Use a closable kind if an end may go first.
//!
//! # Transactions
//!
//! Channels of one [`Domain`] can take part in one transaction. Ends make steps, and [`Domain::run`] runs a tuple of
//! steps: all of them or nothing, as soon as none must wait. It returns their replies.
//!
//! ```
//! use yalwythen::Domain;
//!
//! let domain = Domain::new();
//! let ((tx, rx), (done, finished), (log, logs)) = (domain.queue(), domain.bounded(8)?, domain.queue());
//! tx.send(20)?;
//! // Both are read, written and logged, or nothing is.
//! let ((), ()) = domain.run((rx.pass_on(&done), log.write("passed on")))?;
//! assert_eq!(domain.run((finished.read(), logs.read()))?, (20, "passed on"));
//! // Without waiting: the steps come back with their values.
//! assert!(domain.try_run((rx.read(), log.write("never"))).is_err());
//! assert!(logs.is_empty());
//! # Ok::<(), Box<dyn std::error::Error>>(())
//! ```
//!
//! [`Domain::atomically`] runs a closure as a transaction that decides as it goes. `tx.retry()` waits for a change, and
//! `tx.or_else` tries one branch and then another one.
//!
//! ```
//! use yalwythen::Domain;
//!
//! let domain = Domain::new();
//! let ((vip, vips), (other, others), (desk, served)) = (domain.queue(), domain.queue(), domain.bounded(2)?);
//! other.send("Ann")?;
//! vip.send("Bob")?;
//! let serve = || {
//!     domain.try_atomically(|tx| {
//!         let name = tx.or_else(|tx| tx.read(&vips), |tx| tx.read(&others))?;
//!         tx.check(!name.is_empty())?;
//!         tx.write(&desk, name)
//!     })
//! };
//! assert!(serve().is_ok() && serve().is_ok() && serve().is_err());
//! assert_eq!(served.try_iter().collect::<Vec<_>>(), ["Bob", "Ann"]);
//! # Ok::<(), Box<dyn std::error::Error>>(())
//! ```
//!
//! # Selections
//!
//! [`select!`] runs the first of several alternatives that need not wait, in their order. An alternative may be a whole
//! transaction. [`Domain::select`] is the same as a builder.
//!
//! ```
//! use std::time::Duration;
//! use yalwythen::{Domain, select};
//!
//! let domain = Domain::new();
//! let ((urgent, urgents), (other, others), (log, _logs)) = (domain.queue(), domain.queue(), domain.queue());
//! urgent.send("fire").unwrap();
//! select! {
//!     recv(urgents) -> word => assert_eq!(word, Ok("fire")),
//!     run((others.read(), log.write("read"))) -> (number, ()) => println!("{number}"),
//!     default(Duration::from_millis(10)) => panic!("too late"),
//! }
//! # other.send(1).unwrap();
//! ```
//!
//! # Async
//!
//! With the feature `async`, which is on by default, each wait can be a future: [`Sender::send_async`],
//! [`Receiver::recv_async`], [`Receiver::stream`] and [`Domain::run_async`]. They depend on no runtime, and can be
//! dropped at any time. Threads and tasks can share a channel.
//!
//! ```
//! # use std::{future::Future, pin::{Pin, pin}, sync::Arc, task::{Context, Poll, Wake, Waker}, thread};
//! # struct Unpark(thread::Thread);
//! # impl Wake for Unpark { fn wake(self: Arc<Self>) { self.0.unpark() } }
//! # fn block_on<F: Future>(future: F) -> F::Output {
//! #     let (mut future, waker) = (pin!(future), Waker::from(Arc::new(Unpark(thread::current()))));
//! #     loop {
//! #         if let Poll::Ready(output) = future.as_mut().poll(&mut Context::from_waker(&waker)) { return output }
//! #         thread::park();
//! #     }
//! # }
//! let (tx, rx) = yalwythen::closable();
//! std::thread::spawn(move || (1..=100).for_each(|number| tx.send(number).unwrap()));
//! let sum = block_on(async {
//!     let (mut sum, mut numbers) = (0, rx.stream());
//!     while let Some(number) = numbers.next().await {
//!         sum += number;
//!     }
//!     sum
//! });
//! assert_eq!(sum, 5050);
//! ```
//!
//! # Order and fairness
//!
//! Threads and tasks that wait in a send or a receive of one queue are served in the order in which they came. A call
//! that need not wait may go before them. Those that wait for several things are woken by each of them.
//!
//! Transactions of one domain run one after another, under one lock. Put channels that need common transactions in one
//! domain, and other channels in another one.
//!
//! # What is proved
//!
//! What a transaction does inside the static library is proved. The lock, the waiting, the values and this crate are
//! tested, not proved. The repository's `docs/RUST.md` has the table. With the feature `twin` the crate links a plain
//! Rust copy of the library, which is only tested.
#![deny(missing_docs, unsafe_code)]

mod abi;
pub mod account;
mod after;
mod attempt;
mod chan;
#[cfg(all(test, not(feature = "twin")))]
mod compared;
#[cfg_attr(feature = "twin", path = "twin/mod.rs")]
#[cfg_attr(not(feature = "twin"), path = "sys.rs")]
mod core;
mod domain;
mod error;
mod free;
#[cfg(feature = "async")]
mod futures;
mod guard;
mod idle;
mod inner;
mod iter;
pub mod kinds;
mod last_receiver;
mod last_sender;
mod lock;
mod receiver;
#[cfg(not(feature = "twin"))]
pub mod script;
mod select;
mod sender;
mod shared;
mod steps;
mod stopped;
mod store;
mod subscriber;
mod thread_id;
mod ticket;
#[cfg(all(test, not(feature = "twin")))]
mod twin;
mod tx;
mod unsent;
mod waiting;

pub use domain::Domain;
pub use error::{
    AccountError, AtomicallyTimeoutError, BoundError, Cause, Failure, RecvError, RecvTimeoutError, RunError, SendError,
    SendTimeoutError, SubscribeError, TryAtomicallyError, TryRecvError, TryRunError, TrySendError,
};
pub use free::{bounded, bounded_closable, broadcast, broadcast_closable, closable, queue};
#[cfg(feature = "async")]
pub use futures::{RecvFuture, RecvStream, RunFuture, SendFuture};
pub use iter::{IntoIter, Iter, TryIter};
pub use receiver::Receiver;
pub use select::Select;
#[doc(hidden)]
pub use select::{__selected, Choice};
pub use sender::Sender;
pub use steps::{Closing, Next, PassOn, Peek, Read, Steps, Write};
pub use subscriber::Subscriber;
pub use tx::{Item, Output, Peeked, Retry, Source, Tx, Writable};
