//! The writing end of a channel.

use crate::chan::Chan;
use crate::domain::Domain;
use crate::error::{SendError, SendTimeoutError, SubscribeError, TrySendError};
use crate::kinds::{BoundKind, BroadcastKind, CloseKind, Kind, QueueKind};
use crate::last_sender::LastSender;
use crate::steps::{Closing, Sending, Single, Write};
use crate::stopped::Stopped;
use crate::subscriber::Subscriber;
use crate::unsent::Unsent;
use crate::waiting::Until;
use std::fmt;
use std::sync::Arc;
use std::time::{Duration, Instant};

/// The writing end of a channel: it sends values of type `T` to a channel of kind `K`.
///
/// A clone is another end of the same channel. If the kind can be closed, the channel is closed when its last sender is
/// dropped, also in a panic.
///
/// ```
/// let (tx, rx) = yalwythen::closable();
/// let other = tx.clone();
/// std::thread::spawn(move || tx.send(1));
/// std::thread::spawn(move || other.send(2));
/// assert_eq!(rx.iter().sum::<i32>(), 3);
/// ```
///
/// A queue that cannot be closed has no `close`:
///
/// ```compile_fail,E0599
/// let (tx, _rx) = yalwythen::queue::<u32>();
/// tx.close();
/// ```
pub struct Sender<T, K: Kind> {
    pub(crate) chan: Chan<T, K>,
    _last: Arc<LastSender<T, K>>,
}

impl<T, K: Kind> Clone for Sender<T, K> {
    fn clone(&self) -> Sender<T, K> {
        Sender { chan: self.chan.clone(), _last: Arc::clone(&self._last) }
    }
}

impl<T, K: Kind> fmt::Debug for Sender<T, K> {
    fn fmt(&self, f: &mut fmt::Formatter<'_>) -> fmt::Result {
        f.debug_struct("Sender").field("channel", &self.chan.number).finish_non_exhaustive()
    }
}

impl<T, K: Kind> Sender<T, K> {
    pub(crate) fn new(chan: Chan<T, K>) -> Sender<T, K> {
        let last = Arc::new(LastSender(chan.clone()));
        Sender { chan, _last: last }
    }

    /// Returns the domain of the channel.
    pub fn domain(&self) -> Domain {
        Domain::of(&self.chan.inner)
    }

    /// Returns whether another sender is of the same channel.
    pub fn same_channel(&self, other: &Sender<T, K>) -> bool {
        self.chan.is_same(&other.chan)
    }

    /// Returns a step that writes a value, for [`Domain::run`] and [`Domain::select`].
    ///
    /// It replies `()`, or, if the channel can be closed, `Result<(), T>`: the value comes back if the channel is
    /// closed.
    pub fn write(&self, value: T) -> Write<'_, T, K> {
        Write::new(self, value)
    }
}

impl<T: Send + 'static, K: Kind> Sender<T, K> {
    /// Sends a value. Blocks while the queue is full.
    ///
    /// Fails if the channel is closed or if allocation fails. The value comes back in the error.
    pub fn send(&self, value: T) -> Result<(), SendError<T>> {
        match self.write_until(value, Until::Never) {
            Ok(()) => Ok(()),
            Err(Unsent::Closed(value)) => Err(SendError::Closed(value)),
            Err(Unsent::Failed(value, failure)) => Err(SendError::Failed(value, failure)),
            Err(Unsent::Full(_)) => unreachable!("it waits for ever"),
        }
    }

    /// Sends a value without waiting for space.
    ///
    /// Fails if the queue is full, if the channel is closed or if allocation fails. The value comes back in the error.
    /// Blocks only while other threads have the domain's lock.
    pub fn try_send(&self, value: T) -> Result<(), TrySendError<T>> {
        self.write_until(value, Until::Now).map_err(|unsent| match unsent {
            Unsent::Full(value) => TrySendError::Full(value),
            Unsent::Closed(value) => TrySendError::Closed(value),
            Unsent::Failed(value, failure) => TrySendError::Failed(value, failure),
        })
    }

    /// Sends a value. Blocks while the queue is full, at most for this time.
    ///
    /// Fails if the time is over, if the channel is closed or if allocation fails. The value comes back in the error.
    pub fn send_timeout(&self, value: T, timeout: Duration) -> Result<(), SendTimeoutError<T>> {
        self.send_until(value, Until::after(timeout))
    }

    /// Sends a value. Blocks while the queue is full, at most until the deadline.
    ///
    /// Fails if the time is over, if the channel is closed or if allocation fails. The value comes back in the error.
    pub fn send_deadline(&self, value: T, deadline: Instant) -> Result<(), SendTimeoutError<T>> {
        self.send_until(value, Until::Time(deadline))
    }

    /// Sends a value, without a thread: the future waits while the queue is full.
    ///
    /// It fails if the channel is closed or if allocation fails. The value comes back in the error.
    #[cfg(feature = "async")]
    pub fn send_async(&self, value: T) -> crate::SendFuture<'_, T, K> {
        crate::SendFuture::new(self, self.write(value))
    }

    /// The step of `send(..)` in a `select!`.
    #[doc(hidden)]
    pub fn sending(&self, value: T) -> Sending<'_, T, K> {
        Sending(self.write(value))
    }

    fn send_until(&self, value: T, until: Until) -> Result<(), SendTimeoutError<T>> {
        self.write_until(value, until).map_err(|unsent| match unsent {
            Unsent::Full(value) => SendTimeoutError::Timeout(value),
            Unsent::Closed(value) => SendTimeoutError::Closed(value),
            Unsent::Failed(value, failure) => SendTimeoutError::Failed(value, failure),
        })
    }

    fn write_until(&self, value: T, until: Until) -> Result<(), Unsent<T>> {
        let mut sending = Single::new(Sending(self.write(value)));
        match self.chan.inner.run(&mut sending, until) {
            Ok(sent) => sent.map_err(|error| Unsent::Closed(error.into_inner())),
            Err(Stopped::Retry(_)) => Err(Unsent::Full(sending.step.0.into_value())),
            Err(Stopped::Failed(failure)) => Err(Unsent::Failed(sending.step.0.into_value(), failure)),
        }
    }
}

impl<T, K: QueueKind> Sender<T, K> {
    /// Returns the number of values in the queue at this moment.
    ///
    /// Copies a number for each of them, so time and memory grow with the length.
    ///
    /// # Panics
    ///
    /// If allocation fails, or if a closure of `atomically` on this domain calls it.
    pub fn len(&self) -> usize {
        self.chan.len(0)
    }

    /// Returns whether the queue is empty at this moment.
    ///
    /// # Panics
    ///
    /// If allocation fails, or if a closure of `atomically` on this domain calls it. Use
    /// [`Tx::read`](crate::Tx::read) there: it retries if there is nothing to read.
    pub fn is_empty(&self) -> bool {
        self.chan.is_empty(0)
    }

    /// Returns whether the queue is full at this moment. A queue without a bound is never full.
    ///
    /// # Panics
    ///
    /// If allocation fails, or if a closure of `atomically` on this domain calls it. Use
    /// [`Tx::write`](crate::Tx::write) there: it retries if the queue is full.
    pub fn is_full(&self) -> bool {
        K::BOUNDED && self.chan.is_full()
    }

    /// Returns the bound of the queue, or `None` if it has none.
    pub fn capacity(&self) -> Option<usize> {
        K::BOUNDED.then_some(self.chan.bound)
    }
}

impl<T, K: BoundKind> Sender<T, K> {
    /// Returns the bound of the queue.
    pub fn bound(&self) -> usize {
        self.chan.bound
    }
}

impl<T, K: CloseKind> Sender<T, K> {
    /// Closes the channel, though other senders may be left. What is in it can still be read.
    ///
    /// Does nothing if the channel is closed. Blocks only while other threads have the domain's lock.
    ///
    /// # Panics
    ///
    /// If a closure of `atomically` on this domain calls it.
    pub fn close(&self) {
        self.chan.close();
    }

    /// Returns whether the channel is closed.
    ///
    /// # Panics
    ///
    /// If a closure of `atomically` on this domain calls it.
    pub fn is_closed(&self) -> bool {
        self.chan.is_closed()
    }

    /// Returns a step that closes the channel, for [`Domain::run`] and [`Domain::select`]. It replies `()`.
    pub fn closing(&self) -> Closing<'_, T, K> {
        Closing::new(self)
    }
}

impl<T: Send + Sync + 'static, K: BroadcastKind> Sender<Arc<T>, K> {
    /// Returns a subscriber that reads what is sent from now on.
    ///
    /// Fails if the broadcast has 64 subscribers or if allocation fails.
    pub fn subscribe(&self) -> Result<Subscriber<T, K>, SubscribeError> {
        Subscriber::join(self.chan.clone())
    }
}
