//! Channels on which transactions run.

use crate::abi::{Ask, Said};
use crate::chan::Chan;
use crate::core::Core;
use crate::error::{BoundError, Failure, RunError, TryRunError};
use crate::inner::Inner;
use crate::kinds::{self, BroadcastKind, Kind, QueueKind};
use crate::receiver::Receiver;
use crate::select::Select;
use crate::sender::Sender;
use crate::shared::Shared;
use crate::steps::{Steps, Trial};
use crate::stopped::Stopped;
use crate::store::Stores;
use crate::subscriber::Subscriber;
use crate::waiting::Until;
use std::fmt;
use std::sync::Arc;
use std::time::Duration;

/// The largest bound of a queue.
const MOST: usize = 65_535;

/// A group of channels that can take part in one transaction. A clone is the same domain.
///
/// Channels can be added at any time, up to 65,536. They stay until the domain and all their ends are dropped.
///
/// ```
/// use yalwythen::Domain;
///
/// let domain = Domain::new();
/// let (orders, _orders) = domain.queue();
/// let (log, logged) = domain.queue();
/// // Both values are written, or none.
/// domain.run((orders.write(7), log.write("ordered 7")))?;
/// assert_eq!(logged.recv(), Ok("ordered 7"));
/// # Ok::<(), yalwythen::RunError>(())
/// ```
#[derive(Clone)]
pub struct Domain {
    pub(crate) inner: Arc<Inner>,
}

impl Domain {
    /// Returns a domain without channels.
    ///
    /// # Panics
    ///
    /// If allocation fails.
    pub fn new() -> Domain {
        Domain::with(false)
    }

    /// Returns a domain that records what is done on its queues, for [`account`](Domain::account).
    ///
    /// Its memory grows with each change of a queue. It has no broadcasts.
    ///
    /// # Panics
    ///
    /// If allocation fails.
    pub fn recorded() -> Domain {
        Domain::with(true)
    }

    /// Adds a queue without a bound that cannot be closed.
    ///
    /// # Panics
    ///
    /// If the domain has 65,536 channels or if allocation fails.
    pub fn queue<T: Send + 'static>(&self) -> (Sender<T, kinds::Queue>, Receiver<T, kinds::Queue>) {
        self.add_queue(0)
    }

    /// Adds a queue with a bound that cannot be closed. A queue with bound 0 is always full: each `send` blocks.
    ///
    /// Fails if the bound is over 65,535.
    ///
    /// # Panics
    ///
    /// If the domain has 65,536 channels or if allocation fails.
    #[allow(clippy::type_complexity)]
    pub fn bounded<T: Send + 'static>(
        &self,
        bound: usize,
    ) -> Result<(Sender<T, kinds::Bounded>, Receiver<T, kinds::Bounded>), BoundError> {
        is_bound(bound).map(|()| self.add_queue(bound))
    }

    /// Adds a queue without a bound that can be closed.
    ///
    /// # Panics
    ///
    /// If the domain has 65,536 channels or if allocation fails.
    pub fn closable<T: Send + 'static>(&self) -> (Sender<T, kinds::Closable>, Receiver<T, kinds::Closable>) {
        self.add_queue(0)
    }

    /// Adds a queue with a bound that can be closed. A queue with bound 0 is always full: each `send` blocks.
    ///
    /// Fails if the bound is over 65,535.
    ///
    /// # Panics
    ///
    /// If the domain has 65,536 channels or if allocation fails.
    #[allow(clippy::type_complexity)]
    pub fn bounded_closable<T: Send + 'static>(
        &self,
        bound: usize,
    ) -> Result<(Sender<T, kinds::BoundedClosable>, Receiver<T, kinds::BoundedClosable>), BoundError> {
        is_bound(bound).map(|()| self.add_queue(bound))
    }

    /// Adds a broadcast that cannot be closed, with one subscriber.
    ///
    /// # Panics
    ///
    /// If the domain records, if it has 65,536 channels or if allocation fails.
    #[allow(clippy::type_complexity)]
    pub fn broadcast<T: Send + Sync + 'static>(
        &self,
    ) -> (Sender<Arc<T>, kinds::Broadcast>, Subscriber<T, kinds::Broadcast>) {
        self.add_broadcast()
    }

    /// Adds a broadcast that can be closed, with one subscriber.
    ///
    /// # Panics
    ///
    /// If the domain records, if it has 65,536 channels or if allocation fails.
    #[allow(clippy::type_complexity)]
    pub fn broadcast_closable<T: Send + Sync + 'static>(
        &self,
    ) -> (Sender<Arc<T>, kinds::BroadcastClosable>, Subscriber<T, kinds::BroadcastClosable>) {
        self.add_broadcast()
    }

    /// Returns the number of channels that were added.
    pub fn channel_count(&self) -> usize {
        self.inner.lock_without_naps().waiters.channel_count()
    }

    /// Returns whether another domain is the same.
    pub fn same_domain(&self, other: &Domain) -> bool {
        Arc::ptr_eq(&self.inner, &other.inner)
    }

    /// Runs steps as one transaction: all of them or nothing. Returns their replies.
    ///
    /// Fails if a step is of another domain or if allocation fails; values that the steps were to write are dropped
    /// then. Blocks until no step must wait.
    pub fn run<S: Steps>(&self, steps: S) -> Result<S::Replies, RunError> {
        self.run_until(steps, Until::Never).map_err(|error| match error {
            TryRunError::Retry(..) => unreachable!("it waits for ever"),
            TryRunError::OtherDomain(_) => RunError::OtherDomain,
            TryRunError::Failed(_, failure) => RunError::Failed(failure),
        })
    }

    /// Runs steps as one transaction without waiting. Returns their replies.
    ///
    /// Fails if a step must wait, if a step is of another domain or if allocation fails. The steps come back in the
    /// error. Blocks only while other threads have the domain's lock.
    pub fn try_run<S: Steps>(&self, steps: S) -> Result<S::Replies, TryRunError<S>> {
        self.run_until(steps, Until::Now)
    }

    /// Runs steps as one transaction. Returns their replies.
    ///
    /// Fails if a step must wait when the time is over, if a step is of another domain or if allocation fails. The
    /// steps come back in the error. Blocks until no step must wait, at most for this time.
    pub fn run_timeout<S: Steps>(&self, steps: S, timeout: Duration) -> Result<S::Replies, TryRunError<S>> {
        self.run_until(steps, Until::after(timeout))
    }

    /// Runs steps as one transaction, without a thread: the future waits while a step must wait.
    ///
    /// It fails if a step is of another domain or if allocation fails.
    #[cfg(feature = "async")]
    pub fn run_async<S: Steps>(&self, steps: S) -> crate::RunFuture<'_, S> {
        crate::RunFuture::new(self, steps)
    }

    /// Returns a selection without alternatives. See [`Select`].
    pub fn select<'a, R>(&self) -> Select<'a, R> {
        Select::of(Some(Arc::clone(&self.inner)))
    }

    pub(crate) fn of(inner: &Arc<Inner>) -> Domain {
        Domain { inner: Arc::clone(inner) }
    }

    fn with(records: bool) -> Domain {
        let mut core = Core::new(records);
        checked(core.ask(Ask::AddSeat));
        Domain { inner: Arc::new(Inner::new(Shared::new(core), records)) }
    }

    fn run_until<S: Steps>(&self, mut steps: S, until: Until) -> Result<S::Replies, TryRunError<S>> {
        if !steps.is_of(&self.inner) {
            return Err(TryRunError::OtherDomain(steps));
        }
        match self.inner.run(&mut Trial(&mut steps), until) {
            Ok(replies) => Ok(replies),
            Err(Stopped::Retry(cause)) => Err(TryRunError::Retry(steps, cause)),
            Err(Stopped::Failed(failure)) => Err(TryRunError::Failed(steps, failure)),
        }
    }

    fn add_queue<T: Send + 'static, K: QueueKind>(&self, bound: usize) -> (Sender<T, K>, Receiver<T, K>) {
        let chan: Chan<T, K> = self.add(bound, Stores::slots_of::<T>);
        (Sender::new(chan.clone()), Receiver::new(chan))
    }

    fn add_broadcast<T: Send + Sync + 'static, K: BroadcastKind>(&self) -> (Sender<Arc<T>, K>, Subscriber<T, K>) {
        assert!(!self.inner.records, "a domain that records has no broadcasts");
        let chan: Chan<Arc<T>, K> = self.add(1, Stores::new_feed::<Arc<T>>);
        (Sender::new(chan.clone()), Subscriber::first(chan))
    }

    fn add<T, K: Kind>(&self, size: usize, store: impl FnOnce(&mut Stores) -> usize) -> Chan<T, K> {
        let mut shared = self.inner.lock();
        let number = checked(shared.core.ask(Ask::Declare { kind: K::NUMBER, size: size as u64 }));
        let store = store(&mut shared.stores);
        shared.waiters.add_channel(K::BOUNDED, K::NUMBER >= kinds::Broadcast::NUMBER);
        Chan::new(Arc::clone(&self.inner), number as u16, store, size)
    }
}

impl Default for Domain {
    fn default() -> Domain {
        Domain::new()
    }
}

impl fmt::Debug for Domain {
    fn fmt(&self, f: &mut fmt::Formatter<'_>) -> fmt::Result {
        f.debug_struct("Domain").finish_non_exhaustive()
    }
}

fn is_bound(bound: usize) -> Result<(), BoundError> {
    if bound > MOST { Err(BoundError { bound }) } else { Ok(()) }
}

/// The value of a call that adds to a domain.
fn checked(said: Said) -> u64 {
    match said.code {
        Said::DONE => said.value,
        Said::REFUSED => panic!("a domain has at most 65,536 channels"),
        _ => panic!("{}", Failure::NoMemory),
    }
}
