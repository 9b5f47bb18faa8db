//! Readers of broadcasts that no subscriber has. The library keeps what a reader leaves unread, so idle readers are
//! emptied from time to time, and used again.

#[allow(clippy::module_inception)]
mod idle;
mod readers;

pub use idle::Idle;

use crate::abi::{Ask, Order, Said, op, reply};
use crate::error::SubscribeError;
use crate::shared::{SEAT, Shared};
use crate::stopped::{Stopped, stopped};

/// The code of a step in an open transaction that got an item.
const GOT: u64 = Said::APPLIED + reply::GOT;

impl Shared {
    /// Notes that no subscriber has this reader any more.
    pub fn retire(&mut self, channel: u16, reader: u16) {
        self.empty(channel, reader);
        self.idle.add(channel, reader);
    }

    /// Empties all idle readers of a broadcast.
    pub fn catch_up(&mut self, channel: u16) {
        for reader in self.idle.of(channel) {
            self.empty(channel, reader);
        }
    }

    /// A reader that gets what is written from now on: an idle one, or a new one.
    pub fn new_reader(&mut self, channel: u16) -> Result<u16, SubscribeError> {
        if let Some(reader) = self.idle.take(channel) {
            self.empty(channel, reader);
            return Ok(reader);
        }
        self.make_reader(Order::new(op::DUPLICATE, channel))
    }

    /// A reader that gets all that another one has left to read: a new one, or an idle one that gets a copy.
    pub fn clone_reader(&mut self, channel: u16, reader: u16) -> Result<u16, SubscribeError> {
        match self.make_reader(Order::by(op::CLONE, channel, reader)) {
            Err(SubscribeError::TooManySubscribers) => {
                let other = self.idle.take(channel).ok_or(SubscribeError::TooManySubscribers)?;
                self.empty(channel, other);
                self.copy_unread(channel, reader, other).inspect_err(|_| self.idle.add(channel, other))?;
                Ok(other)
            }
            made => made,
        }
    }

    /// Adds a reader by this step.
    fn make_reader(&mut self, order: Order) -> Result<u16, SubscribeError> {
        let mut replies = [Said::default()];
        match self.core.transact(SEAT, &[order], &mut replies) {
            Said { code: Said::DONE, .. } if replies[0].code == reply::READER => Ok(replies[0].value as u16),
            Said { code: Said::STOPPED, value: 3 } => Err(SubscribeError::TooManySubscribers),
            said => match stopped(said) {
                Stopped::Failed(failure) => Err(SubscribeError::Failed(failure)),
                Stopped::Retry(_) => unreachable!("to add a reader never waits"),
            },
        }
    }

    /// Copies what a reader has left to read to an empty one, by an open transaction that takes it and puts it back.
    fn copy_unread(&mut self, channel: u16, from: u16, to: u16) -> Result<(), SubscribeError> {
        self.core.ask(Ask::Begin { seat: SEAT });
        let mut bodies = Vec::new();
        let take = Ask::Apply(Order::by(op::TRY_READ, channel, from));
        while let Said { code: GOT, value } = self.core.ask(take) {
            bodies.push(value);
        }
        let back = bodies.iter().rev().flat_map(|body| [from, to].map(|reader| (reader, *body)));
        let mut orders = back.map(|(reader, body)| Order { op: op::PUT_BACK, channel, reader, body });
        let is_copied = orders.all(|order| self.core.ask(Ask::Apply(order)).code == Said::APPLIED + reply::DONE);
        if is_copied && self.core.ask(Ask::Commit).code == Said::DONE {
            return Ok(());
        }
        // A closed broadcast takes nothing back.
        self.core.ask(Ask::RollBack);
        Err(SubscribeError::TooManySubscribers)
    }

    /// Takes all that a reader has left to read. Stops early if allocation fails.
    fn empty(&mut self, channel: u16, reader: u16) {
        let mut replies = [Default::default()];
        let order = [Order::by(op::TRY_READ, channel, reader)];
        while self.core.transact(SEAT, &order, &mut replies).code == 0 && replies[0].code == reply::GOT {}
    }
}
