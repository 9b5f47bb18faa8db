use super::entry::Entry;
use super::held::Held;
use super::journal::Journal;
use super::mark::Mark;
use super::{Item, Peeked, Retry, Source, Writable};
use crate::abi::{Ask, Order, Said, op, reply};
use crate::chan::Chan;
use crate::error::Failure;
use crate::guard::Guard;
use crate::kinds::{CloseKind, Kind, QueueKind};
use crate::receiver::Receiver;
use crate::sender::Sender;
use crate::shared::Shared;
use crate::stopped::{Stopped, stopped};
use crate::store::{LOST, Slot};
use std::cell::Cell;
use std::fmt;
use std::rc::Rc;
use std::sync::Arc;

/// An open transaction, of an [`atomically`](crate::Domain::atomically) closure.
///
/// Each step returns `Err(Retry)` if it must wait: the closure returns that by `?`. A step panics if its end is of
/// another domain.
pub struct Tx<'d> {
    pub(super) shared: Guard<'d>,
    pub(super) journal: Journal,
    /// The number of savepoints.
    depth: usize,
    /// Whether a step must wait or has failed, so that nothing but a rollback is possible.
    pub(super) is_broken: bool,
    pub(super) failure: Option<Failure>,
    /// The number of the attempt.
    attempt: u64,
    inner: &'d Arc<crate::inner::Inner>,
}

impl fmt::Debug for Tx<'_> {
    fn fmt(&self, f: &mut fmt::Formatter<'_>) -> fmt::Result {
        f.debug_struct("Tx").finish_non_exhaustive()
    }
}

impl<'d> Tx<'d> {
    pub(super) fn new(inner: &'d Arc<crate::inner::Inner>, shared: Guard<'d>, attempt: u64) -> Tx<'d> {
        Tx { shared, journal: Journal::default(), depth: 0, is_broken: false, failure: None, attempt, inner }
    }

    /// Reads the first value of a queue, or the next value of a subscriber.
    ///
    /// Returns an [`Item`], or an `Arc` for a subscriber. If the channel can be closed, it returns an `Option` of that:
    /// `None` if the channel is closed and empty. Returns `Retry` if there is no value.
    pub fn read<S: Source>(&mut self, from: &S) -> Result<S::Got, Retry> {
        from.read_in(self)
    }

    /// Peeks the first value of a queue, which stays there.
    ///
    /// Returns a [`Peeked`], or, if the queue can be closed, an `Option` of that: `None` if it is closed and empty.
    /// Returns `Retry` if there is no value.
    pub fn peek<T: Send + 'static, K: QueueKind>(
        &mut self,
        from: &Receiver<T, K>,
    ) -> Result<K::Read<Peeked<T>>, Retry> {
        let body = self.got(&from.chan, Order::new(op::PEEK, from.chan.number))?;
        Ok(K::read(body.map(|key| Peeked { held: self.hold(&from.chan, key, false) })))
    }

    /// Writes a value, or an [`Item`] that this closure has read.
    ///
    /// Returns `()`, or, if the channel can be closed, a `Result`: the value comes back if the channel is closed.
    /// Returns `Retry` if the queue is full: a new value is then dropped, and an [`Item`] goes back to its queue.
    pub fn write<T, K: Kind, W: Writable<T, K>>(
        &mut self,
        to: &Sender<T, K>,
        value: W,
    ) -> Result<K::Written<W>, Retry> {
        Ok(K::written(value.write_in(self, &to.chan)?))
    }

    /// Closes a channel.
    pub fn close<T, K: CloseKind>(&mut self, sender: &Sender<T, K>) -> Result<(), Retry> {
        self.apply(&sender.chan, Order::new(op::CLOSE, sender.chan.number)).map(|_| ())
    }

    /// Returns `Retry`: the transaction waits until one of the channels that it was on changes.
    pub fn retry<R>(&mut self) -> Result<R, Retry> {
        Err(Retry(()))
    }

    /// Returns `Retry` if the condition does not hold.
    pub fn check(&mut self, holds: bool) -> Result<(), Retry> {
        if holds { Ok(()) } else { self.retry() }
    }

    /// Runs the first closure. If it returns `Retry`, what it did is rolled back, and the second one runs.
    ///
    /// # Panics
    ///
    /// If an [`Item`] or a [`Peeked`] has left the first closure and it is rolled back.
    pub fn or_else<R>(
        &mut self,
        first: impl FnOnce(&mut Tx<'d>) -> Result<R, Retry>,
        second: impl FnOnce(&mut Tx<'d>) -> Result<R, Retry>,
    ) -> Result<R, Retry> {
        let mark = self.set_mark()?;
        match first(self) {
            Ok(output) if !self.is_broken => {
                self.release(mark)?;
                Ok(output)
            }
            // What the closure returned may hold items, which go first.
            result => {
                drop(result);
                self.roll_back_to(mark)?;
                second(self)
            }
        }
    }

    /// Takes the first value of a queue.
    pub(super) fn take<T, K: QueueKind>(&mut self, chan: &Chan<T, K>) -> Result<Option<Rc<Held<T>>>, Retry>
    where
        T: Send + 'static,
    {
        let body = self.got(chan, Order::new(op::READ, chan.number))?;
        Ok(body.map(|key| self.hold(chan, key, true)))
    }

    /// Reads the next value of a subscriber.
    pub(super) fn hear<T: Send + Sync + 'static, K: Kind>(
        &mut self,
        chan: &Chan<Arc<T>, K>,
        reader: u16,
    ) -> Result<Option<Arc<T>>, Retry> {
        let Some(number) = self.got(chan, Order::by(op::READ, chan.number, reader))? else { return Ok(None) };
        let commit = |shared: &mut Shared, store, reader, number| {
            let left = shared.stores.feed::<Arc<T>>(store).advance(reader, number);
            shared.after.garbage.push(Box::new(left));
        };
        self.journal.push(Entry::Heard { store: chan.store, reader, number, commit });
        Ok(Some(Arc::clone(self.shared.stores.feed(chan.store).get(number))))
    }

    /// Writes a new value.
    pub(super) fn write_new<T, K: Kind>(&mut self, chan: &Chan<T, K>, value: T) -> Result<Result<(), T>, Retry>
    where
        T: Send + 'static,
    {
        self.check(!self.is_broken)?;
        self.assert_mine(chan);
        let body = chan.put(&mut self.shared, value);
        match self.apply(chan, Order::write(chan.number, body)) {
            Ok(Said { code: reply::CLOSED, .. }) => Ok(Err(chan.take_back(&mut self.shared, body))),
            Ok(_) => {
                let (commit, roll_back) = (commit_new::<T, K>, roll_back_new::<T, K>);
                self.journal.push(Entry::New { store: chan.store, body, commit, roll_back });
                Ok(Ok(()))
            }
            Err(retry) => {
                roll_back_new::<T, K>(&mut self.shared, chan.store, body);
                Err(retry)
            }
        }
    }

    /// Writes an item that was read.
    pub(super) fn write_on<T, K: Kind>(
        &mut self,
        chan: &Chan<T, K>,
        item: Item<T>,
    ) -> Result<Result<(), Item<T>>, Retry>
    where
        T: Send + 'static,
    {
        assert!(item.held.attempt == self.attempt, "an `Item` was kept beyond its `atomically` closure");
        match self.apply(chan, Order::write(chan.number, item.held.key))?.code {
            reply::CLOSED => Ok(Err(item)),
            _ => {
                self.journal.hold(item.held, false);
                Ok(Ok(()))
            }
        }
    }

    /// The body that an operation gets, or `None` at the end of a closed channel.
    fn got<T, K>(&mut self, chan: &Chan<T, K>, order: Order) -> Result<Option<u64>, Retry> {
        let said = self.apply(chan, order)?;
        Ok((said.code == reply::GOT).then_some(said.value))
    }

    /// Applies an operation. Returns its reply.
    fn apply<T, K>(&mut self, chan: &Chan<T, K>, order: Order) -> Result<Said, Retry> {
        self.check(!self.is_broken)?;
        self.assert_mine(chan);
        self.shared.notes.touched.push(order.channel);
        let said = self.shared.core.ask(Ask::Apply(order));
        if said.code < Said::APPLIED {
            return Err(self.broken(said));
        }
        let said = Said { code: said.code - Said::APPLIED, value: said.value };
        if matches!(said.code, reply::DONE | reply::GOT) {
            self.shared.notes.changes.push((order.op, order.channel));
        }
        Ok(said)
    }

    /// Notes that only a rollback is possible.
    fn broken(&mut self, said: Said) -> Retry {
        self.is_broken = true;
        if let Stopped::Failed(failure) = stopped(said) {
            self.failure = Some(failure);
        }
        Retry(())
    }

    /// Holds the value of a key.
    fn hold<T: 'static, K>(&mut self, chan: &Chan<T, K>, key: u64, is_taken: bool) -> Rc<Held<T>> {
        let place = self.journal.len();
        let slots = self.shared.stores.slots::<T>(chan.store);
        let held = match slots.replace(key, Slot::Held(place)) {
            Slot::Value(value) => Rc::new(Held {
                value,
                store: chan.store,
                key,
                attempt: self.attempt,
                entries: Cell::new(0),
                is_taken: Cell::new(false),
            }),
            Slot::Held(first) => {
                slots.replace(key, Slot::Held(first));
                self.journal.held(first).downcast().expect("a value of this type")
            }
            Slot::Lost | Slot::Free => {
                slots.replace(key, Slot::Lost);
                panic!("{LOST}")
            }
        };
        self.journal.hold(held.clone(), is_taken);
        held
    }

    fn set_mark(&mut self) -> Result<Mark, Retry> {
        self.check(!self.is_broken)?;
        let mark = Mark { depth: self.depth, entries: self.journal.len(), changes: self.shared.notes.changes.len() };
        let said = self.shared.core.ask(Ask::SetSavepoint);
        if said.code != Said::DONE {
            return Err(self.broken(said));
        }
        self.depth += 1;
        Ok(mark)
    }

    /// Removes the savepoints from a mark on, and keeps what was done.
    fn release(&mut self, mark: Mark) -> Result<(), Retry> {
        while self.depth > mark.depth {
            self.shared.number(Ask::ReleaseSavepoint);
            self.depth -= 1;
        }
        Ok(())
    }

    /// Undoes what was done since a mark. Fails if the whole transaction must be rolled back.
    fn roll_back_to(&mut self, mark: Mark) -> Result<(), Retry> {
        self.check(self.failure.is_none())?;
        while self.depth > mark.depth {
            self.shared.number(Ask::RollBackToSavepoint);
            self.depth -= 1;
        }
        self.journal.roll_back(mark.entries, &mut self.shared);
        self.shared.notes.changes.truncate(mark.changes);
        self.is_broken = false;
        self.assert_nothing_lost();
        Ok(())
    }

    pub(super) fn assert_nothing_lost(&self) {
        assert!(!self.journal.has_lost, "an `Item` or a `Peeked` was kept beyond its `atomically` closure");
    }

    fn assert_mine<T, K>(&self, chan: &Chan<T, K>) {
        assert!(Arc::ptr_eq(&chan.inner, self.inner), "a step is on a channel of another domain");
    }
}

fn commit_new<T: Send + 'static, K: Kind>(shared: &mut Shared, store: usize, body: u64) {
    let left = K::trim::<T>(&mut shared.stores, store, body);
    shared.after.garbage.extend(left);
}

fn roll_back_new<T: Send + 'static, K: Kind>(shared: &mut Shared, store: usize, body: u64) {
    let value: T = K::take_back(&mut shared.stores, store, body);
    shared.after.garbage.push(Box::new(value));
}
