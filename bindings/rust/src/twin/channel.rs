use super::item::Item;
use super::undo::Undo;
use crate::abi::{Order, Record, Said, op, reply};
use std::collections::VecDeque;

const BOUNDED: u64 = 1;
const BOUNDED_CLOSABLE: u64 = 3;
const BROADCAST: u64 = 4;

const MOST_READERS: usize = 64;

/// The origin in a record of an account that has no item.
const NO_ITEM: u16 = 2;

/// What an operation did: its reply, and how it is undone if it changed the channel. Or why it did nothing.
type Done = Result<(Said, Option<Undo>), Said>;

/// A channel.
#[derive(Debug)]
pub struct Channel {
    kind: u64,
    bound: u64,
    pub is_closed: bool,
    /// The stamp of the last transaction that was on it.
    pub stamp: u64,
    readers: Vec<VecDeque<Item>>,
    /// The numbers of items that were written and put back.
    counts: [u64; 2],
    log: Option<Vec<Record>>,
}

fn say(code: u64, value: u64) -> Said {
    Said { code, value }
}

impl Channel {
    pub fn new(kind: u64, size: u64, records: bool) -> Result<Channel, u64> {
        let readers = if kind >= BROADCAST { size } else { 1 };
        if records && kind >= BROADCAST {
            return Err(4);
        }
        if matches!(kind, BOUNDED | BOUNDED_CLOSABLE) && size > 65_535 {
            return Err(17);
        }
        if readers > MOST_READERS as u64 {
            return Err(18);
        }
        let readers = vec![VecDeque::new(); readers as usize];
        Ok(Channel {
            kind,
            bound: size,
            is_closed: false,
            stamp: 0,
            readers,
            counts: [0; 2],
            log: records.then(Vec::new),
        })
    }

    /// The number of items that a reader has to read.
    pub fn length(&self, reader: u16) -> Option<usize> {
        self.readers.get(usize::from(reader)).map(VecDeque::len)
    }

    /// Whether this kind has an operation.
    pub fn allows(&self, order: &Order) -> Result<(), u64> {
        let (is_broadcast, can_close) = (self.kind >= BROADCAST, matches!(self.kind, 2 | 3 | 5));
        let is_allowed = match order.op {
            op::WRITE | op::WRITE_LAST | op::READ | op::TRY_READ | op::PEEK | op::PUT_BACK | op::IS_EMPTY => true,
            op::IS_FULL => matches!(self.kind, BOUNDED | BOUNDED_CLOSABLE),
            op::CLOSE => can_close,
            op::DUPLICATE | op::CLONE => is_broadcast,
            _ => false,
        };
        match is_allowed {
            false => Err(2),
            true if !is_broadcast && order.reader != 0 && names_reader(order.op) => Err(3),
            true => Ok(()),
        }
    }

    /// Does an operation. `mark` has the stamp, the serial and the seat.
    pub fn operate(&mut self, order: &Order, mark: &Record) -> Done {
        match order.op {
            op::WRITE | op::WRITE_LAST => self.write(order.body, mark),
            op::READ | op::TRY_READ | op::PEEK => self.read(order, mark),
            op::PUT_BACK => self.put_back(order, mark),
            op::CLOSE => self.close(mark),
            op::IS_EMPTY => self.is_empty(order),
            op::IS_FULL => Ok((say(reply::FLAG, self.is_full().into()), None)),
            _ => self.add_reader(order),
        }
    }

    /// Undoes the last change.
    pub fn undo(&mut self, undo: Undo) {
        match undo {
            Undo::Put => {
                self.counts[0] -= 1;
                self.readers.iter_mut().for_each(|items| _ = items.pop_back());
            }
            Undo::Took { reader, item } => self.readers[usize::from(reader)].push_front(item),
            Undo::PutBack { reader } => {
                self.counts[1] -= 1;
                self.readers[usize::from(reader)].pop_front();
            }
            Undo::Closed => self.is_closed = false,
            Undo::Reader => _ = self.readers.pop(),
        }
        if undo != Undo::Reader {
            self.log.iter_mut().for_each(|log| _ = log.pop());
        }
    }

    /// The log, and what is left.
    pub fn account(&self) -> Vec<Record> {
        let left = self.readers.iter().flatten().map(|item| record(6, Some(item), &Record::default()));
        self.log.iter().flatten().copied().chain(left).collect()
    }

    fn is_full(&self) -> bool {
        matches!(self.kind, BOUNDED | BOUNDED_CLOSABLE) && self.readers[0].len() as u64 >= self.bound
    }

    fn write(&mut self, body: u64, mark: &Record) -> Done {
        if self.is_closed {
            return Ok((say(reply::CLOSED, 0), None));
        }
        if self.is_full() {
            return Err(say(Said::RETRY, 0));
        }
        let item = Item { body, origin: 0, number: self.counts[0], maker: mark.seat };
        self.counts[0] += 1;
        self.readers.iter_mut().for_each(|items| items.push_back(item));
        self.note(record(0, Some(&item), mark));
        Ok((say(reply::DONE, 0), Some(Undo::Put)))
    }

    fn read(&mut self, order: &Order, mark: &Record) -> Done {
        let items = self.readers.get_mut(usize::from(order.reader)).ok_or(say(Said::STOPPED, 1))?;
        let Some(item) = items.front().copied() else {
            return match order.op {
                _ if self.is_closed => Ok((say(reply::CLOSED, 0), None)),
                op::TRY_READ => Ok((say(3, 0), None)),
                _ => Err(say(Said::RETRY, 1)),
            };
        };
        let got = say(reply::GOT, item.body);
        if order.op == op::PEEK {
            return Ok((got, None));
        }
        items.pop_front();
        self.note(record(1, Some(&item), mark));
        Ok((got, Some(Undo::Took { reader: order.reader, item })))
    }

    fn put_back(&mut self, order: &Order, mark: &Record) -> Done {
        let reader = usize::from(order.reader);
        if reader >= self.readers.len() {
            return Err(say(Said::STOPPED, 1));
        }
        if self.is_closed {
            return Ok((say(reply::CLOSED, 0), None));
        }
        if self.kind == BOUNDED && self.is_full() {
            return Err(say(Said::RETRY, 0));
        }
        let item = Item { body: order.body, origin: 1, number: self.counts[1], maker: mark.seat };
        self.counts[1] += 1;
        self.readers[reader].push_front(item);
        self.note(record(2, Some(&item), mark));
        Ok((say(reply::DONE, 0), Some(Undo::PutBack { reader: order.reader })))
    }

    fn is_empty(&self, order: &Order) -> Done {
        let items = self.readers.get(usize::from(order.reader)).ok_or(say(Said::STOPPED, 1))?;
        Ok((say(reply::FLAG, items.is_empty().into()), None))
    }

    fn close(&mut self, mark: &Record) -> Done {
        if self.is_closed {
            return Ok((say(reply::DONE, 0), None));
        }
        self.is_closed = true;
        self.note(record(3, None, mark));
        Ok((say(reply::DONE, 0), Some(Undo::Closed)))
    }

    fn add_reader(&mut self, order: &Order) -> Done {
        let items = match order.op {
            op::CLONE => self.readers.get(usize::from(order.reader)).ok_or(say(Said::STOPPED, 1))?.clone(),
            _ => VecDeque::new(),
        };
        if self.readers.len() >= MOST_READERS {
            return Err(say(Said::STOPPED, 3));
        }
        self.readers.push(items);
        Ok((say(reply::READER, self.readers.len() as u64 - 1), Some(Undo::Reader)))
    }

    fn note(&mut self, record: Record) {
        self.log.iter_mut().for_each(|log| log.push(record));
    }
}

/// Whether an operation is of one reader.
fn names_reader(operation: u32) -> bool {
    !matches!(operation, op::WRITE | op::WRITE_LAST | op::CLOSE | op::IS_FULL | op::DUPLICATE)
}

/// A record of an account.
fn record(act: u16, item: Option<&Item>, mark: &Record) -> Record {
    let item = item.copied().unwrap_or(Item { body: 0, origin: NO_ITEM, number: 0, maker: 0 });
    Record { act, origin: item.origin, number: item.number, body: item.body, maker: item.maker, ..*mark }
}
