//! The reading end of a broadcast.

use crate::chan::Chan;
use crate::domain::Domain;
use crate::error::{RecvError, RecvTimeoutError, SubscribeError, TryRecvError};
use crate::kinds::{BroadcastKind, CloseKind};
use crate::shared::Shared;
use crate::steps::{Next, Recv, Single};
use crate::stopped::Stopped;
use crate::waiting::Until;
use std::fmt;
use std::sync::Arc;
use std::time::{Duration, Instant};

/// The reading end of a broadcast: it receives every value that is sent, as an `Arc`.
///
/// A clone gets all that this subscriber has left to read. [`resubscribe`](Subscriber::resubscribe) returns one that
/// gets only what is sent from then on. A broadcast has at most 64 subscribers at a time. What a subscriber leaves
/// unread stays in memory until it is read or the subscriber is dropped.
///
/// ```
/// use std::sync::Arc;
///
/// let (tx, first) = yalwythen::broadcast_closable();
/// tx.send(Arc::new(1)).unwrap();
/// let second = first.clone();
/// let third = first.resubscribe().unwrap();
/// tx.send(Arc::new(2)).unwrap();
/// drop(tx);
/// let all = |subscriber: yalwythen::Subscriber<i32, _>| subscriber.iter().map(|value| *value).collect::<Vec<i32>>();
/// assert_eq!([all(first), all(second), all(third)], [vec![1, 2], vec![1, 2], vec![2]]);
/// ```
pub struct Subscriber<T: Send + Sync + 'static, K: BroadcastKind> {
    pub(crate) chan: Chan<Arc<T>, K>,
    pub(crate) reader: u16,
}

impl<T: Send + Sync + 'static, K: BroadcastKind> Subscriber<T, K> {
    /// The subscriber that a broadcast begins with.
    pub(crate) fn first(chan: Chan<Arc<T>, K>) -> Subscriber<T, K> {
        chan.inner.lock().stores.feed::<Arc<T>>(chan.store).join(0);
        Subscriber { chan, reader: 0 }
    }

    /// One that reads what is sent from now on.
    pub(crate) fn join(chan: Chan<Arc<T>, K>) -> Result<Subscriber<T, K>, SubscribeError> {
        let mut shared = chan.inner.lock();
        let reader = shared.new_reader(chan.number)?;
        shared.stores.feed::<Arc<T>>(chan.store).join(reader);
        drop(shared);
        Ok(Subscriber { chan, reader })
    }

    /// Returns a subscriber that reads what is sent from now on.
    ///
    /// Fails if the broadcast has 64 subscribers or if allocation fails.
    pub fn resubscribe(&self) -> Result<Subscriber<T, K>, SubscribeError> {
        Subscriber::join(self.chan.clone())
    }

    /// Returns a subscriber that reads all that this one has left to read, and what is sent from now on.
    ///
    /// Fails if the broadcast has 64 subscribers or if allocation fails. Fails also if it is closed and had 64
    /// subscribers before, and some of those were dropped.
    pub fn try_clone(&self) -> Result<Subscriber<T, K>, SubscribeError> {
        let mut shared = self.chan.inner.lock();
        let reader = shared.clone_reader(self.chan.number, self.reader)?;
        shared.stores.feed::<Arc<T>>(self.chan.store).follow(reader, self.reader);
        drop(shared);
        Ok(Subscriber { chan: self.chan.clone(), reader })
    }

    /// Returns the domain of the broadcast.
    pub fn domain(&self) -> Domain {
        Domain::of(&self.chan.inner)
    }

    /// Returns whether another subscriber is of the same broadcast.
    pub fn same_channel(&self, other: &Subscriber<T, K>) -> bool {
        self.chan.is_same(&other.chan)
    }

    /// Receives the next value. Blocks while there is none.
    ///
    /// Fails if the broadcast is closed and all is read, or if allocation fails.
    pub fn recv(&self) -> Result<Arc<T>, RecvError> {
        self.read_until(Until::Never).unwrap_or_else(|stopped| match stopped {
            Stopped::Failed(failure) => Err(RecvError::Failed(failure)),
            Stopped::Retry(_) => unreachable!("it waits for ever"),
        })
    }

    /// Receives the next value without waiting for one.
    ///
    /// Fails if there is none, or if allocation fails. Blocks only while other threads have the domain's lock.
    pub fn try_recv(&self) -> Result<Arc<T>, TryRecvError> {
        match self.read_until(Until::Now) {
            Ok(received) => received.map_err(|_| TryRecvError::Closed),
            Err(Stopped::Retry(_)) => Err(TryRecvError::Empty),
            Err(Stopped::Failed(failure)) => Err(TryRecvError::Failed(failure)),
        }
    }

    /// Receives the next value. Blocks while there is none, at most for this time.
    ///
    /// Fails if the time is over, if the broadcast is closed and all is read, or if allocation fails.
    pub fn recv_timeout(&self, timeout: Duration) -> Result<Arc<T>, RecvTimeoutError> {
        self.recv_until(Until::after(timeout))
    }

    /// Receives the next value. Blocks while there is none, at most until the deadline.
    ///
    /// Fails if the time is over, if the broadcast is closed and all is read, or if allocation fails.
    pub fn recv_deadline(&self, deadline: Instant) -> Result<Arc<T>, RecvTimeoutError> {
        self.recv_until(Until::Time(deadline))
    }

    /// Returns an iterator that receives values. Each `next` blocks like [`recv`](Subscriber::recv).
    ///
    /// It ends when the broadcast is closed and all is read. It panics if allocation fails.
    pub fn iter(&self) -> impl Iterator<Item = Arc<T>> + '_ {
        std::iter::from_fn(|| crate::iter::next(self.recv()))
    }

    /// Returns an iterator that receives values without waiting.
    ///
    /// It ends when there is none. It panics if allocation fails.
    pub fn try_iter(&self) -> impl Iterator<Item = Arc<T>> + '_ {
        std::iter::from_fn(|| match self.try_recv() {
            Ok(value) => Some(value),
            Err(TryRecvError::Empty | TryRecvError::Closed) => None,
            Err(TryRecvError::Failed(failure)) => crate::iter::next(Err(RecvError::Failed(failure))),
        })
    }

    /// Returns a step that reads the next value, for [`Domain::run`] and [`Domain::select`].
    ///
    /// It replies `Arc<T>`, or, if the broadcast can be closed, an `Option` of it: `None` if it is closed and all is
    /// read.
    pub fn read(&self) -> Next<'_, T, K> {
        Next::new(self)
    }

    /// Returns the number of values that this subscriber has left to read at this moment.
    ///
    /// Copies a number for each of them, so time and memory grow with the length.
    ///
    /// # Panics
    ///
    /// If allocation fails, or if a closure of `atomically` on this domain calls it.
    pub fn len(&self) -> usize {
        self.chan.len(self.reader)
    }

    /// Returns whether this subscriber has nothing left to read at this moment.
    ///
    /// # Panics
    ///
    /// If allocation fails, or if a closure of `atomically` on this domain calls it. Use
    /// [`Tx::read`](crate::Tx::read) there: it retries if there is nothing to read.
    pub fn is_empty(&self) -> bool {
        self.chan.is_empty(self.reader)
    }

    /// Receives the next value, without a thread: the future waits while there is none.
    ///
    /// It fails if the broadcast is closed and all is read, or if allocation fails.
    #[cfg(feature = "async")]
    pub fn recv_async(&self) -> crate::RecvFuture<'_, Next<'_, T, K>> {
        crate::RecvFuture::new(&self.chan.inner, self.read())
    }

    /// Returns a stream of the values, without a thread.
    ///
    /// It ends when the broadcast is closed and all is read. It panics if allocation fails.
    #[cfg(feature = "async")]
    pub fn stream(&self) -> crate::RecvStream<'_, Next<'_, T, K>> {
        crate::RecvStream::new(|| self.recv_async())
    }

    /// The step of `recv(..)` in a `select!`.
    #[doc(hidden)]
    pub fn receiving(&self) -> Recv<Next<'_, T, K>> {
        Recv(self.read())
    }

    /// The value of a number that this reader got.
    pub(crate) fn got(&self, shared: &mut Shared, number: u64) -> Arc<T> {
        shared.stores.feed::<Arc<T>>(self.chan.store).read(self.reader, number)
    }

    fn recv_until(&self, until: Until) -> Result<Arc<T>, RecvTimeoutError> {
        match self.read_until(until) {
            Ok(received) => received.map_err(|_| RecvTimeoutError::Closed),
            Err(Stopped::Retry(_)) => Err(RecvTimeoutError::Timeout),
            Err(Stopped::Failed(failure)) => Err(RecvTimeoutError::Failed(failure)),
        }
    }

    fn read_until(&self, until: Until) -> Result<Result<Arc<T>, RecvError>, Stopped> {
        self.chan.inner.run(&mut Single::new(Recv(self.read())), until)
    }
}

impl<T: Send + Sync + 'static, K: BroadcastKind + CloseKind> Subscriber<T, K> {
    /// Returns whether the broadcast is closed. Values may be left to read.
    ///
    /// # Panics
    ///
    /// If a closure of `atomically` on this domain calls it.
    pub fn is_closed(&self) -> bool {
        self.chan.is_closed()
    }
}

/// # Panics
///
/// If [`try_clone`](Subscriber::try_clone) fails.
impl<T: Send + Sync + 'static, K: BroadcastKind> Clone for Subscriber<T, K> {
    fn clone(&self) -> Subscriber<T, K> {
        self.try_clone().unwrap_or_else(|error| panic!("a subscriber cannot be cloned: {error}"))
    }
}

impl<T: Send + Sync + 'static, K: BroadcastKind> Drop for Subscriber<T, K> {
    fn drop(&mut self) {
        let (number, store, reader) = (self.chan.number, self.chan.store, self.reader);
        self.chan.inner.soon(move |shared| {
            let left = shared.stores.feed::<Arc<T>>(store).leave(reader);
            shared.after.garbage.push(Box::new(left));
            shared.retire(number, reader);
        });
    }
}

impl<T: Send + Sync + 'static, K: BroadcastKind> fmt::Debug for Subscriber<T, K> {
    fn fmt(&self, f: &mut fmt::Formatter<'_>) -> fmt::Result {
        f.debug_struct("Subscriber").field("channel", &self.chan.number).finish_non_exhaustive()
    }
}
