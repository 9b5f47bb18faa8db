//! The library and its twin, compared call by call on random transactions.

use crate::abi::{Ask, Order, Record, Said, op};
use crate::core::Core;
use crate::twin;

const ROUNDS: u64 = 400;
const CALLS: u64 = 150;
const SEATS: u64 = 3;
const OPERATIONS: [u32; 11] = [
    op::WRITE,
    op::READ,
    op::TRY_READ,
    op::PEEK,
    op::PUT_BACK,
    op::CLOSE,
    op::WRITE_LAST,
    op::IS_EMPTY,
    op::IS_FULL,
    op::DUPLICATE,
    op::CLONE,
];

/// A generator of numbers by Marsaglia's xorshift.
struct Random(u64);

impl Random {
    /// A number below a bound.
    fn below(&mut self, bound: u64) -> u64 {
        self.0 ^= self.0 << 13;
        self.0 ^= self.0 >> 7;
        self.0 ^= self.0 << 17;
        (self.0 >> 16) % bound
    }

    /// A number below a bound, or rarely the bound itself.
    fn about(&mut self, bound: u64) -> u64 {
        if self.below(40) == 0 { bound } else { self.below(bound) }
    }
}

/// A domain of the library and one of the twin, which get the same calls.
struct Pair {
    random: Random,
    core: Core,
    twin: twin::Core,
    /// The calls so far, for the message of a test that fails.
    calls: Vec<String>,
    channels: u16,
    has_broadcast: bool,
}

impl Pair {
    /// Two domains with the same channels and seats.
    fn new(seed: u64, records: bool) -> Pair {
        let (core, twin) = (Core::new(records), twin::Core::new(records));
        let random = Random(seed.wrapping_mul(0x9e37_79b9_7f4a_7c15));
        let mut pair = Pair { random, core, twin, calls: Vec::new(), channels: 0, has_broadcast: false };
        (0..SEATS).for_each(|_| _ = pair.ask(Ask::AddSeat));
        for _ in 0..=pair.random.below(5) {
            pair.declare();
        }
        pair
    }

    fn declare(&mut self) {
        let kind = self.random.below(7);
        let size = match self.random.below(12) {
            0 => 70_000,
            size => size % 5,
        };
        if self.ask(Ask::Declare { kind, size }).code == Said::DONE {
            self.channels += 1;
            self.has_broadcast |= kind >= 4;
        }
    }

    /// Asks both.
    fn ask(&mut self, ask: Ask) -> Said {
        self.calls.push(format!("{ask:?}"));
        let said = self.core.ask(ask);
        assert_eq!(said, self.twin.ask(ask), "after {:#?}", self.calls);
        said
    }

    /// A step, mostly one that its channel has.
    fn order(&mut self) -> Order {
        let operations = if self.has_broadcast { 11 } else { 9 };
        let op = OPERATIONS[self.random.below(operations) as usize];
        let channel = self.random.about(self.channels.into()) as u16;
        let reader = if self.has_broadcast { self.random.below(3) as u16 } else { 0 };
        Order { op, channel, reader, body: self.random.below(1000) }
    }

    /// Runs steps as one transaction in both.
    fn transact(&mut self) {
        let orders: Vec<Order> = (0..self.random.below(5)).map(|_| self.order()).collect();
        let seat = self.random.about(SEATS);
        self.calls.push(format!("seat {seat}: {orders:?}"));
        let mut replies = [vec![Said::default(); orders.len()], vec![Said::default(); orders.len()]];
        let said = self.core.transact(seat, &orders, &mut replies[0]);
        assert_eq!(said, self.twin.transact(seat, &orders, &mut replies[1]), "after {:#?}", self.calls);
        if said.code == Said::DONE {
            assert_eq!(replies[0], replies[1], "after {:#?}", self.calls);
        }
    }

    /// Opens a transaction in both, and goes on until it is closed.
    fn go(&mut self) {
        let seat = self.random.below(SEATS);
        self.ask(Ask::Begin { seat });
        loop {
            let ask = match self.random.below(14) {
                0 => Ask::SetSavepoint,
                1 => Ask::RollBackToSavepoint,
                2 => Ask::ReleaseSavepoint,
                3 => Ask::RollBack,
                4 | 5 => Ask::Commit,
                _ => Ask::Apply(self.order()),
            };
            let said = self.ask(ask);
            if said.code == Said::DONE && matches!(ask, Ask::RollBack | Ask::Commit) {
                return;
            }
        }
    }

    /// Compares all that can be asked of the channels.
    fn compare(&mut self) {
        for channel in 0..self.channels {
            self.ask(Ask::IsClosed { channel });
            (0..3).for_each(|reader| _ = self.ask(Ask::Length { channel, reader }));
            let said = self.core.account(channel, 0, &mut []);
            let mut records =
                [vec![Record::default(); said.value as usize], vec![Record::default(); said.value as usize]];
            self.core.account(channel, 0, &mut records[0]);
            assert_eq!(said, self.twin.account(channel, 0, &mut records[1]), "after {:#?}", self.calls);
            if said.code == Said::DONE {
                assert_eq!(records[0], records[1], "channel {channel} after {:#?}", self.calls);
            }
        }
    }
}

/// Runs random calls in pairs of domains.
fn compare_pairs(records: bool) {
    for seed in 1..=ROUNDS {
        let mut pair = Pair::new(seed, records);
        if pair.channels == 0 {
            continue;
        }
        for _ in 0..CALLS {
            match pair.random.below(10) {
                0 => pair.go(),
                1 => pair.compare(),
                2 if pair.channels < 8 => pair.declare(),
                _ => pair.transact(),
            }
        }
        pair.compare();
    }
}

#[test]
fn transactions_are_as_in_the_twin() {
    compare_pairs(false);
}

#[test]
fn accounts_are_as_in_the_twin() {
    compare_pairs(true);
}
