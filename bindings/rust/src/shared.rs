//! What the lock of a domain protects.

use crate::abi::{Ask, Order, Said, op, reply};
use crate::after::After;
use crate::core::Core;
use crate::idle::Idle;
use crate::stopped::{Stopped, done, stopped};
use crate::store::Stores;
use crate::tx::Notes;
use crate::waiting::{Waiters, Wishes};

/// The seat of all ends. A seat is only a name in logs: the lock keeps calls apart.
pub const SEAT: u64 = 0;

/// The library's domain, the values on their way, and those that wait.
pub struct Shared {
    pub core: Core,
    pub stores: Stores,
    pub waiters: Waiters,
    pub idle: Idle,
    /// The steps of the transaction that is tried.
    pub orders: Vec<Order>,
    /// Their replies, if it committed.
    pub replies: Vec<Said>,
    /// The number of replies that were read.
    cursor: usize,
    /// What the open transaction notes.
    pub notes: Notes,
    /// What is done once the lock is released.
    pub after: After,
    /// Channels that could not be closed, because allocation failed.
    unclosed: Vec<u16>,
}

impl Shared {
    pub fn new(core: Core) -> Shared {
        Shared {
            core,
            stores: Stores::default(),
            waiters: Waiters::default(),
            idle: Idle::default(),
            orders: Vec::new(),
            replies: Vec::new(),
            cursor: 0,
            notes: Notes::default(),
            after: After::default(),
            unclosed: Vec::new(),
        }
    }

    /// Runs the steps in `orders`: all of them or nothing.
    pub fn transact(&mut self) -> Result<(), Stopped> {
        self.cursor = 0;
        if self.passes_on_among_others() {
            self.transact_by_steps()?;
        } else {
            self.transact_at_once()?;
        }
        self.committed();
        Ok(())
    }

    /// The next reply of the transaction that committed last.
    pub fn next_reply(&mut self) -> Said {
        let said = self.replies[self.cursor];
        self.cursor += 1;
        said
    }

    /// What the steps in `orders` wait for.
    pub fn wishes(&self) -> Wishes {
        self.waiters.wishes(&self.orders)
    }

    /// Notes a change that committed.
    #[inline]
    pub fn changed(&mut self, operation: u32, channel: u16) {
        if !self.waiters.is_empty() {
            self.waiters.wake_for(operation, channel, &mut self.after.woken);
        }
        if !self.idle.is_empty() && self.idle.note(operation, channel) {
            self.catch_up(channel);
        }
    }

    /// Closes a channel. If allocation fails, it is tried again when the lock is released next.
    pub fn close(&mut self, channel: u16) {
        if self.run_one(Order::new(op::CLOSE, channel)).is_err() {
            self.unclosed.push(channel);
        }
    }

    /// Whether nothing is left to be done when the lock is released.
    #[inline]
    pub fn is_quiet(&self) -> bool {
        self.after.is_empty() && self.unclosed.is_empty()
    }

    /// Tries again to close what could not be closed. Returns what is to be done once the lock is released.
    pub fn take_after(&mut self) -> After {
        for channel in std::mem::take(&mut self.unclosed) {
            self.close(channel);
        }
        std::mem::take(&mut self.after)
    }

    /// Stops waiting. A wake that was not used goes to others.
    pub fn give_up(&mut self, ticket: u64, wishes: &Wishes) {
        match self.waiters.remove(ticket) {
            Some(waker) => self.after.garbage.push(Box::new(waker)),
            None => self.waiters.hand_on(wishes, &mut self.after.woken),
        }
    }

    /// Runs one step by itself. Returns its reply if it committed.
    #[inline]
    pub fn run_one(&mut self, order: Order) -> Result<Said, Stopped> {
        let mut replies = [Said::default()];
        let said = self.core.transact(SEAT, &[order], &mut replies);
        if said.code != Said::DONE {
            return Err(stopped(said));
        }
        let [said] = replies;
        self.replied(order, said);
        Ok(said)
    }

    /// Asks for a number that is always there.
    pub fn number(&mut self, ask: Ask) -> u64 {
        let said = self.core.ask(ask);
        assert_eq!(said.code, Said::DONE, "the library returned {said:?} for {ask:?}");
        said.value
    }

    /// Asks whether something holds, by a step of a transaction that is rolled back, so that no record has it.
    pub fn flag(&mut self, order: Order) -> bool {
        self.number(Ask::Begin { seat: SEAT });
        let said = self.core.ask(Ask::Apply(order));
        self.number(Ask::RollBack);
        assert_eq!(said.code, Said::APPLIED + reply::FLAG, "the library returned {said:?} for {order:?}");
        said.value != 0
    }

    /// Whether a value is passed on among other steps. In a list of steps, what is passed on at the end of a closed
    /// channel would be what another step has read.
    fn passes_on_among_others(&self) -> bool {
        self.orders.len() > 2 && self.orders.iter().any(|order| order.op == op::WRITE_LAST)
    }

    /// Runs the steps by one call.
    fn transact_at_once(&mut self) -> Result<(), Stopped> {
        self.replies.resize(self.orders.len(), Said::default());
        match self.core.transact(SEAT, &self.orders, &mut self.replies) {
            Said { code: Said::DONE, .. } => Ok(()),
            // A value was to be passed on from a channel at its end, or the steps are too many for one list.
            Said { code: Said::STOPPED, value: 2 } | Said { code: Said::INVALID, value: 4 | 6 } => {
                self.transact_by_steps()
            }
            said => Err(stopped(said)),
        }
    }

    /// Runs the steps one by one in an open transaction. A write of what was read last is skipped if nothing was read,
    /// and its reply is `CLOSED` then.
    fn transact_by_steps(&mut self) -> Result<(), Stopped> {
        self.replies.clear();
        done(self.core.ask(Ask::Begin { seat: SEAT }))?;
        for order in &self.orders {
            let was_closed = self.replies.last().is_some_and(|last| last.code == reply::CLOSED);
            let said = if order.op == op::WRITE_LAST && was_closed {
                Said { code: Said::APPLIED + reply::CLOSED, value: 0 }
            } else {
                self.core.ask(Ask::Apply(*order))
            };
            if said.code < Said::APPLIED {
                self.core.ask(Ask::RollBack);
                return Err(stopped(said));
            }
            self.replies.push(Said { code: said.code - Said::APPLIED, value: said.value });
        }
        let said = self.core.ask(Ask::Commit);
        if said.code != Said::DONE {
            self.core.ask(Ask::RollBack);
        }
        done(said)
    }

    /// Notes the changes of a transaction that committed.
    fn committed(&mut self) {
        for place in 0..self.orders.len() {
            self.replied(self.orders[place], self.replies[place]);
        }
    }

    /// Notes the change of a step that committed, if it has changed its channel.
    #[inline]
    fn replied(&mut self, order: Order, said: Said) {
        if matches!(said.code, reply::DONE | reply::GOT) {
            self.changed(order.op, order.channel);
        }
    }
}
