//! The calls of the static library once more, in plain Rust, for tests and for targets the library is not built for. It
//! was written from `docs/CHANNELS.md` and the description of the calls. It is tested, not proved, and has the calls
//! that this crate makes.

mod channel;
mod item;
mod open;
mod savepoint;
mod seat;
mod undo;

use crate::abi::{Ask, Order, Record, Said, op, reply};
use channel::Channel;
use open::Open;
use seat::Seat;
use undo::Undo;

/// The most channels and the most seats of a domain.
const MOST: usize = 65_536;

/// The most channels in one list of steps.
const MOST_NAMED: usize = 4;

/// The most steps in one list.
const MOST_STEPS: usize = 64;

/// A domain.
#[derive(Debug)]
pub struct Core {
    channels: Vec<Channel>,
    seats: Vec<Seat>,
    records: bool,
    /// The greatest stamp of a transaction that committed.
    clock: u64,
    open: Option<Open>,
}

fn say(code: u64, value: u64) -> Said {
    Said { code, value }
}

impl Core {
    pub fn new(records: bool) -> Core {
        Core { channels: Vec::new(), seats: Vec::new(), records, clock: 0, open: None }
    }

    pub fn ask(&mut self, ask: Ask) -> Said {
        match ask {
            Ask::Declare { kind, size } => self.declare(kind, size),
            Ask::AddSeat => self.add_seat(),
            Ask::Length { channel, reader } => {
                let channel = self.channels.get(usize::from(channel));
                let length = channel.and_then(|channel| channel.length(reader));
                length.map_or(say(Said::REFUSED, 0), |length| say(Said::DONE, length as u64))
            }
            Ask::IsClosed { channel } => {
                let channel = self.channels.get(usize::from(channel));
                channel.map_or(say(Said::REFUSED, 0), |channel| say(Said::DONE, channel.is_closed.into()))
            }
            Ask::Begin { seat } => self.begin(seat),
            Ask::Apply(order) => self.apply(order),
            Ask::SetSavepoint => self.set_savepoint(),
            Ask::RollBackToSavepoint => self.roll_back_to_savepoint(),
            Ask::ReleaseSavepoint => self.release_savepoint(),
            Ask::Commit => self.commit(),
            Ask::RollBack => self.roll_back(),
        }
    }

    /// Runs a transaction. If it commits, its replies are written to the front of `replies`, as many as fit.
    pub fn transact(&mut self, seat: u64, orders: &[Order], replies: &mut [Said]) -> Said {
        if self.open.is_some() {
            return say(Said::REFUSED, 1);
        }
        if seat >= self.seats.len() as u64 {
            return say(Said::REFUSED, 0);
        }
        if let Err(said) = self.check(orders) {
            return said;
        }
        // One more than the greatest stamp of what the transaction names.
        let named = orders.iter().map(|order| self.channels[usize::from(order.channel)].stamp);
        let stamp = named.fold(self.seats[seat as usize].stamp, u64::max) + 1;
        self.open = Some(Open::new(seat as u16, stamp));
        for order in orders {
            let said = self.apply(*order);
            if said.code < Said::APPLIED {
                self.roll_back();
                return said;
            }
        }
        let count = orders.len();
        let open = self.open.as_ref().expect("it was begun");
        replies.iter_mut().zip(&open.replies).for_each(|(to, reply)| *to = *reply);
        self.commit();
        say(Said::DONE, count as u64)
    }

    /// Returns the number of records in the account of a channel, and writes those from `from` on, as many as fit.
    pub fn account(&mut self, channel: u16, from: u64, records: &mut [Record]) -> Said {
        match self.channels.get(usize::from(channel)) {
            _ if !self.records || self.open.is_some() => say(Said::REFUSED, 1),
            None => say(Said::REFUSED, 0),
            Some(channel) => {
                let all = channel.account();
                let some = all.iter().skip(from as usize);
                records.iter_mut().zip(some).for_each(|(to, record)| *to = *record);
                say(Said::DONE, all.len() as u64)
            }
        }
    }

    fn declare(&mut self, kind: u64, size: u64) -> Said {
        if kind > 5 {
            return say(Said::REFUSED, 0);
        }
        if self.open.is_some() || self.channels.len() >= MOST {
            return say(Said::REFUSED, 1);
        }
        match Channel::new(kind, size, self.records) {
            Err(cause) => say(Said::REFUSED, cause),
            Ok(channel) => {
                self.channels.push(channel);
                say(Said::DONE, self.channels.len() as u64 - 1)
            }
        }
    }

    fn add_seat(&mut self) -> Said {
        if self.open.is_some() || self.seats.len() >= MOST {
            return say(Said::REFUSED, 1);
        }
        self.seats.push(Seat::default());
        say(Said::DONE, self.seats.len() as u64 - 1)
    }

    /// Whether steps are a transaction.
    fn check(&self, orders: &[Order]) -> Result<(), Said> {
        let mut named = Vec::new();
        for (number, order) in orders.iter().enumerate() {
            if number >= MOST_STEPS {
                return Err(say(Said::INVALID, 6));
            }
            self.check_order(order)?;
            if !named.contains(&order.channel) {
                if named.len() >= MOST_NAMED {
                    return Err(say(Said::INVALID, 4));
                }
                named.push(order.channel);
            }
        }
        Ok(())
    }

    fn check_order(&self, order: &Order) -> Result<(), Said> {
        if order.op > op::CLONE {
            return Err(say(Said::REFUSED, 0));
        }
        let channel = self.channels.get(usize::from(order.channel)).ok_or(say(Said::INVALID, 1))?;
        channel.allows(order).map_err(|cause| say(Said::INVALID, cause))
    }

    fn begin(&mut self, seat: u64) -> Said {
        if self.open.is_some() {
            return say(Said::REFUSED, 1);
        }
        if seat >= self.seats.len() as u64 {
            return say(Said::REFUSED, 0);
        }
        self.open = Some(Open::new(seat as u16, self.clock + 1));
        say(Said::DONE, 0)
    }

    fn apply(&mut self, order: Order) -> Said {
        let Some(open) = self.open.as_ref().filter(|open| !open.is_broken) else { return say(Said::REFUSED, 1) };
        if let Err(said) = self.check_order(&order) {
            return said;
        }
        let mark = Record {
            stamp: open.stamp,
            serial: self.seats[usize::from(open.seat)].serial,
            seat: open.seat,
            ..Record::default()
        };
        let body = if order.op == op::WRITE_LAST { open.last } else { Some(order.body) };
        let open = self.open.as_mut().expect("it is open");
        open.touched.push(order.channel);
        let channel = &mut self.channels[usize::from(order.channel)];
        let done = match body {
            None => Err(say(Said::STOPPED, 2)),
            Some(body) => channel.operate(&Order { body, ..order }, &mark),
        };
        match done {
            Ok((said, undo)) => {
                open.undo.extend(undo.map(|undo| (order.channel, undo)));
                open.replies.push(said);
                if said.code == reply::GOT {
                    open.last = Some(said.value);
                }
                say(Said::APPLIED + said.code, said.value)
            }
            Err(said) => {
                open.is_broken = true;
                said
            }
        }
    }

    fn set_savepoint(&mut self) -> Said {
        match self.open.as_mut().filter(|open| !open.is_broken) {
            None => say(Said::REFUSED, 1),
            Some(open) => say(Said::DONE, open.set_savepoint()),
        }
    }

    fn roll_back_to_savepoint(&mut self) -> Said {
        let Some((left, undo)) = self.open.as_mut().and_then(Open::roll_back_to_savepoint) else {
            return say(Said::REFUSED, 1);
        };
        self.undo(undo);
        say(Said::DONE, left)
    }

    fn release_savepoint(&mut self) -> Said {
        match self.open.as_mut().and_then(Open::release_savepoint) {
            None => say(Said::REFUSED, 1),
            Some(left) => say(Said::DONE, left),
        }
    }

    fn commit(&mut self) -> Said {
        match self.open.take() {
            Some(open) if !open.is_broken => {
                self.clock = self.clock.max(open.stamp);
                let seat = &mut self.seats[usize::from(open.seat)];
                *seat = Seat { serial: seat.serial + 1, stamp: open.stamp };
                for channel in open.touched {
                    self.channels[usize::from(channel)].stamp = open.stamp;
                }
                say(Said::DONE, open.replies.len() as u64)
            }
            open => {
                self.open = open;
                say(Said::REFUSED, 1)
            }
        }
    }

    fn roll_back(&mut self) -> Said {
        match self.open.take() {
            None => say(Said::REFUSED, 1),
            Some(open) => {
                self.undo(open.undo);
                say(Said::DONE, 0)
            }
        }
    }

    /// Undoes changes, the last one first.
    fn undo(&mut self, changes: Vec<(u16, Undo)>) {
        for (channel, undo) in changes.into_iter().rev() {
            self.channels[usize::from(channel)].undo(undo);
        }
    }
}
