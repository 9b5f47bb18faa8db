use super::Side;
use crate::abi::{Order, op};

/// What a transaction waits for.
#[derive(Debug, Clone, Default, PartialEq, Eq)]
pub struct Wishes {
    /// Mostly it is one wish, which needs no allocation.
    first: Option<(Side, u16)>,
    others: Vec<(Side, u16)>,
    /// Whether the transaction takes exactly the one item or place it waits for.
    pub(super) is_single: bool,
}

impl Wishes {
    /// The wishes of these steps, of all alternatives. `is_bounded` and `is_broadcast` describe a channel.
    ///
    /// A transaction waits for items if it reads or peeks, and for space if it writes to a bounded queue. If it has one
    /// such read or write of a queue and otherwise only writes that never wait, it takes what it waits for.
    pub fn of(orders: &[Order], is_bounded: impl Fn(u16) -> bool, is_broadcast: impl Fn(u16) -> bool) -> Wishes {
        let is_free = |order: &&Order| puts(order.op) && !is_bounded(order.channel);
        let mut others = orders.iter().filter(|order| !is_free(order));
        let takes_one = |order: &Order| matches!(order.op, op::WRITE | op::READ) && !is_broadcast(order.channel);
        let is_single = matches!((others.next(), others.next()), (Some(one), None) if takes_one(one));
        let wishes = orders.iter().filter_map(|order| match order.op {
            op::READ | op::PEEK => Some((Side::Items, order.channel)),
            op::WRITE | op::WRITE_LAST | op::PUT_BACK => Some((Side::Space, order.channel)),
            _ => None,
        });
        Wishes::new(wishes.filter(|(side, channel)| *side == Side::Items || is_bounded(*channel)), is_single)
    }

    /// Any change of these channels.
    pub fn any_change(channels: impl IntoIterator<Item = u16>) -> Wishes {
        let sides = |channel| [(Side::Items, channel), (Side::Space, channel)];
        Wishes::new(channels.into_iter().flat_map(sides), false)
    }

    /// The sides of channels that are waited for.
    pub(super) fn list(&self) -> impl Iterator<Item = (Side, u16)> {
        self.first.iter().chain(&self.others).copied()
    }

    fn new(mut list: impl Iterator<Item = (Side, u16)>, is_single: bool) -> Wishes {
        Wishes { first: list.next(), others: list.collect(), is_single }
    }
}

/// Whether an operation adds an item.
pub(super) fn puts(operation: u32) -> bool {
    matches!(operation, op::WRITE | op::WRITE_LAST | op::PUT_BACK)
}
