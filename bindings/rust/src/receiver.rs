//! The reading end of a queue.

use crate::chan::Chan;
use crate::domain::Domain;
use crate::error::{RecvError, RecvTimeoutError, TryRecvError};
use crate::iter::{IntoIter, Iter, TryIter};
use crate::kinds::{CloseKind, QueueKind};
use crate::last_receiver::LastReceiver;
use crate::sender::Sender;
use crate::steps::{PassOn, Peek, Read, Recv, Single};
use crate::stopped::Stopped;
use crate::waiting::Until;
use std::fmt;
use std::sync::Arc;
use std::time::{Duration, Instant};

/// The reading end of a queue: it receives values of type `T` from a queue of kind `K`.
///
/// A clone is another end of the same queue: each value goes to one of them. If the kind can be closed, the queue is
/// closed when its last receiver is dropped, also in a panic, and the values in it are dropped.
///
/// ```
/// let (tx, rx) = yalwythen::closable();
/// tx.send("hello").unwrap();
/// drop(tx);
/// assert_eq!(rx.recv(), Ok("hello"));
/// assert!(rx.recv().is_err());
/// ```
pub struct Receiver<T, K: QueueKind> {
    pub(crate) chan: Chan<T, K>,
    _last: Arc<LastReceiver<T, K>>,
}

impl<T, K: QueueKind> Clone for Receiver<T, K> {
    fn clone(&self) -> Receiver<T, K> {
        Receiver { chan: self.chan.clone(), _last: Arc::clone(&self._last) }
    }
}

impl<T, K: QueueKind> fmt::Debug for Receiver<T, K> {
    fn fmt(&self, f: &mut fmt::Formatter<'_>) -> fmt::Result {
        f.debug_struct("Receiver").field("channel", &self.chan.number).finish_non_exhaustive()
    }
}

impl<T: Send + 'static, K: QueueKind> Receiver<T, K> {
    pub(crate) fn new(chan: Chan<T, K>) -> Receiver<T, K> {
        let last = Arc::new(LastReceiver { chan: chan.clone(), discard: Chan::discard });
        Receiver { chan, _last: last }
    }

    /// Receives the first value. Blocks while the queue is empty.
    ///
    /// Fails if the queue is closed and empty, or if allocation fails.
    pub fn recv(&self) -> Result<T, RecvError> {
        self.read_until(Until::Never).unwrap_or_else(|stopped| match stopped {
            Stopped::Failed(failure) => Err(RecvError::Failed(failure)),
            Stopped::Retry(_) => unreachable!("it waits for ever"),
        })
    }

    /// Receives the first value without waiting for one.
    ///
    /// Fails if the queue is empty, closed or not, or if allocation fails. Blocks only while other threads have the
    /// domain's lock.
    pub fn try_recv(&self) -> Result<T, TryRecvError> {
        match self.read_until(Until::Now) {
            Ok(received) => received.map_err(|_| TryRecvError::Closed),
            Err(Stopped::Retry(_)) => Err(TryRecvError::Empty),
            Err(Stopped::Failed(failure)) => Err(TryRecvError::Failed(failure)),
        }
    }

    /// Receives the first value. Blocks while the queue is empty, at most for this time.
    ///
    /// Fails if the time is over, if the queue is closed and empty, or if allocation fails.
    pub fn recv_timeout(&self, timeout: Duration) -> Result<T, RecvTimeoutError> {
        self.recv_until(Until::after(timeout))
    }

    /// Receives the first value. Blocks while the queue is empty, at most until the deadline.
    ///
    /// Fails if the time is over, if the queue is closed and empty, or if allocation fails.
    pub fn recv_deadline(&self, deadline: Instant) -> Result<T, RecvTimeoutError> {
        self.recv_until(Until::Time(deadline))
    }

    /// Returns an iterator that receives values. Each `next` blocks like [`recv`](Receiver::recv).
    ///
    /// It ends when the queue is closed and empty. It panics if allocation fails.
    pub fn iter(&self) -> Iter<'_, T, K> {
        Iter::new(self)
    }

    /// Returns an iterator that receives values without waiting, like [`try_recv`](Receiver::try_recv).
    ///
    /// It ends when the queue is empty. It panics if allocation fails.
    pub fn try_iter(&self) -> TryIter<'_, T, K> {
        TryIter::new(self)
    }

    /// Returns a step that moves the first value to another queue of this domain, for [`Domain::run`] and
    /// [`Domain::select`].
    ///
    /// It replies `()` for queues that cannot be closed. If this queue can be closed, it replies `None` at its end. If
    /// the other one can be closed and is, the value is read and comes back as `Err`.
    pub fn pass_on<'a, L: QueueKind>(&'a self, to: &'a Sender<T, L>) -> PassOn<'a, T, K, L> {
        PassOn::new(self, to)
    }

    /// Receives the first value, without a thread: the future waits while the queue is empty.
    ///
    /// It fails if the queue is closed and empty, or if allocation fails.
    ///
    /// ```
    /// # use std::{future::Future, pin::pin, task::{Context, Poll, Waker}};
    /// let (tx, rx) = yalwythen::queue();
    /// let mut received = pin!(rx.recv_async());
    /// let mut context = Context::from_waker(Waker::noop());
    /// assert!(received.as_mut().poll(&mut context).is_pending());
    /// tx.send(7).unwrap();
    /// assert_eq!(received.as_mut().poll(&mut context), Poll::Ready(Ok(7)));
    /// ```
    #[cfg(feature = "async")]
    pub fn recv_async(&self) -> crate::RecvFuture<'_, Read<'_, T, K>> {
        crate::RecvFuture::new(&self.chan.inner, self.read())
    }

    /// Returns a stream of the values, without a thread.
    ///
    /// It ends when the queue is closed and empty. It panics if allocation fails.
    #[cfg(feature = "async")]
    pub fn stream(&self) -> crate::RecvStream<'_, Read<'_, T, K>> {
        crate::RecvStream::new(|| self.recv_async())
    }

    /// The step of `recv(..)` in a `select!`.
    #[doc(hidden)]
    pub fn receiving(&self) -> Recv<Read<'_, T, K>> {
        Recv(self.read())
    }

    fn recv_until(&self, until: Until) -> Result<T, RecvTimeoutError> {
        match self.read_until(until) {
            Ok(received) => received.map_err(|_| RecvTimeoutError::Closed),
            Err(Stopped::Retry(_)) => Err(RecvTimeoutError::Timeout),
            Err(Stopped::Failed(failure)) => Err(RecvTimeoutError::Failed(failure)),
        }
    }

    fn read_until(&self, until: Until) -> Result<Result<T, RecvError>, Stopped> {
        self.chan.inner.run(&mut Single::new(Recv(self.read())), until)
    }
}

impl<T, K: QueueKind> Receiver<T, K> {
    /// Returns the domain of the queue.
    pub fn domain(&self) -> Domain {
        Domain::of(&self.chan.inner)
    }

    /// Returns whether another receiver is of the same queue.
    pub fn same_channel(&self, other: &Receiver<T, K>) -> bool {
        self.chan.is_same(&other.chan)
    }

    /// Returns a step that reads the first value, for [`Domain::run`] and [`Domain::select`].
    ///
    /// It replies `T`, or, if the queue can be closed, `Option<T>`: `None` if it is closed and empty.
    pub fn read(&self) -> Read<'_, T, K> {
        Read::new(self)
    }

    /// Returns a step that waits for a value and leaves it in the queue.
    ///
    /// It replies a clone of the value, or, if the queue can be closed, an `Option` of it.
    pub fn peek(&self) -> Peek<'_, T, K> {
        Peek::new(self)
    }

    /// Returns the number of values in the queue at this moment.
    ///
    /// Copies a number for each of them, so time and memory grow with the length.
    ///
    /// # Panics
    ///
    /// If allocation fails, or if a closure of `atomically` on this domain calls it.
    pub fn len(&self) -> usize {
        self.chan.len(0)
    }

    /// Returns whether the queue is empty at this moment.
    ///
    /// # Panics
    ///
    /// If allocation fails, or if a closure of `atomically` on this domain calls it. Use
    /// [`Tx::read`](crate::Tx::read) there: it retries if there is nothing to read.
    pub fn is_empty(&self) -> bool {
        self.chan.is_empty(0)
    }

    /// Returns whether the queue is full at this moment. A queue without a bound is never full.
    ///
    /// # Panics
    ///
    /// If allocation fails, or if a closure of `atomically` on this domain calls it. Use
    /// [`Tx::write`](crate::Tx::write) there: it retries if the queue is full.
    pub fn is_full(&self) -> bool {
        K::BOUNDED && self.chan.is_full()
    }

    /// Returns the bound of the queue, or `None` if it has none.
    pub fn capacity(&self) -> Option<usize> {
        K::BOUNDED.then_some(self.chan.bound)
    }
}

impl<T, K: QueueKind + CloseKind> Receiver<T, K> {
    /// Closes the queue: later sends fail. What is in it can still be read.
    ///
    /// Does nothing if the queue is closed. Blocks only while other threads have the domain's lock.
    ///
    /// # Panics
    ///
    /// If a closure of `atomically` on this domain calls it.
    pub fn close(&self) {
        self.chan.close();
    }

    /// Returns whether the queue is closed. Values may be left in it.
    ///
    /// # Panics
    ///
    /// If a closure of `atomically` on this domain calls it.
    pub fn is_closed(&self) -> bool {
        self.chan.is_closed()
    }
}

impl<'a, T: Send + 'static, K: QueueKind> IntoIterator for &'a Receiver<T, K> {
    type Item = T;
    type IntoIter = Iter<'a, T, K>;

    fn into_iter(self) -> Iter<'a, T, K> {
        self.iter()
    }
}

impl<T: Send + 'static, K: QueueKind> IntoIterator for Receiver<T, K> {
    type Item = T;
    type IntoIter = IntoIter<T, K>;

    fn into_iter(self) -> IntoIter<T, K> {
        IntoIter::new(self)
    }
}
