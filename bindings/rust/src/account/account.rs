use super::{Act, Entry, Origin};
use crate::abi::Record;

/// All that was done on a queue until a moment, and what was left in it then. See
/// [`Domain::account`](crate::Domain::account).
#[derive(Debug, Clone, Default, PartialEq, Eq)]
#[non_exhaustive]
pub struct Account {
    /// The changes, in order.
    pub entries: Vec<Entry>,
    /// The items that were left, in the order in which they are to be read.
    pub left: Vec<Origin>,
}

impl Account {
    pub(super) fn of(records: &[Record]) -> Account {
        let mut account = Account::default();
        for record in records {
            let item = if record.origin == 0 { Origin::Written(record.number) } else { Origin::PutBack(record.number) };
            let act = match record.act {
                0 => Act::Wrote(item),
                1 => Act::Took(item),
                2 => Act::PutBack(item),
                3 => Act::Closed,
                6 => {
                    account.left.push(item);
                    continue;
                }
                other => unreachable!("no act of a queue has the number {other}"),
            };
            account.entries.push(Entry { serial: record.serial, stamp: record.stamp, act });
        }
        account
    }
}
