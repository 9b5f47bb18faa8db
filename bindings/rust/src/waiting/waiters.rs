use super::channel::Channel;
use super::waiter::Waiter;
use super::wishes::puts;
use super::{Side, Wishes, Woken};
use crate::abi::{Order, op};
use std::collections::BTreeMap;
use std::task::Waker;

/// The threads and tasks that wait in a domain, first come, first served.
///
/// A committed transaction that adds an item wakes, among those that wait for an item of that channel, the first of
/// those that take exactly one item, and all that wait for it among other things. One that takes an item does the same
/// for those that wait for space. A close wakes all. An item of a broadcast is for each reader, so it wakes all.
#[derive(Debug, Default)]
pub struct Waiters {
    channels: Vec<Channel>,
    waiting: BTreeMap<u64, Waiter>,
    next: u64,
}

impl Waiters {
    /// Adds a channel, the next in number.
    pub fn add_channel(&mut self, is_bounded: bool, is_broadcast: bool) {
        self.channels.push(Channel { is_bounded, is_broadcast, sides: Default::default() });
    }

    /// The number of channels.
    pub fn channel_count(&self) -> usize {
        self.channels.len()
    }

    /// Whether no thread and no task waits.
    pub fn is_empty(&self) -> bool {
        self.waiting.is_empty()
    }

    /// What these steps wait for.
    pub fn wishes(&self, orders: &[Order]) -> Wishes {
        let channel = |number: u16| &self.channels[usize::from(number)];
        Wishes::of(orders, |number| channel(number).is_bounded, |number| channel(number).is_broadcast)
    }

    /// Adds a waiter at the end of the line, or at its former place if it has a ticket. Returns its ticket, and the
    /// waker that it replaces, which must be dropped without the lock.
    pub fn add(&mut self, ticket: Option<u64>, wishes: Wishes, waker: &Waker) -> (u64, Option<Waker>) {
        if let Some((ticket, waiter)) = ticket.and_then(|ticket| Some((ticket, self.waiting.get_mut(&ticket)?))) {
            let is_same = waiter.waker.will_wake(waker);
            let old = (!is_same).then(|| std::mem::replace(&mut waiter.waker, waker.clone()));
            return (ticket, old);
        }
        let ticket = ticket.unwrap_or(self.next);
        self.next = self.next.max(ticket + 1);
        for (side, channel) in wishes.list() {
            let line = self.channels[usize::from(channel)].sides[side as usize].of(wishes.is_single);
            if let Err(place) = line.binary_search(&ticket) {
                line.insert(place, ticket);
            }
        }
        self.waiting.insert(ticket, Waiter { wishes, waker: waker.clone() });
        (ticket, None)
    }

    /// Removes a waiter. Returns its waker, or `None` if it was woken before.
    pub fn remove(&mut self, ticket: u64) -> Option<Waker> {
        let Waiter { wishes, waker } = self.waiting.remove(&ticket)?;
        for (side, channel) in wishes.list() {
            let line = self.channels[usize::from(channel)].sides[side as usize].of(wishes.is_single);
            if let Ok(place) = line.binary_search(&ticket) {
                line.remove(place);
            }
        }
        Some(waker)
    }

    /// Removes those that a committed operation lets go on, and appends their wakers.
    pub fn wake_for(&mut self, operation: u32, channel: u16, woken: &mut Woken) {
        match operation {
            op::READ | op::TRY_READ => self.wake(Side::Space, channel, woken),
            op::CLOSE => self.wake_all(channel, woken),
            other if puts(other) => self.wake(Side::Items, channel, woken),
            _ => {}
        }
    }

    /// Lets others have what a waiter was woken for and did not take. If it waited for several things, all that wait
    /// for one of them were woken with it.
    pub fn hand_on(&mut self, wishes: &Wishes, woken: &mut Woken) {
        if wishes.is_single {
            wishes.list().for_each(|(side, channel)| self.wake(side, channel, woken));
        }
    }

    fn wake(&mut self, side: Side, channel: u16, woken: &mut Woken) {
        self.wake_first(side, channel, true, woken);
        while self.wake_first(side, channel, false, woken) {}
    }

    fn wake_all(&mut self, channel: u16, woken: &mut Woken) {
        for side in [Side::Items, Side::Space] {
            for is_single in [true, false] {
                while self.wake_first(side, channel, is_single, woken) {}
            }
        }
    }

    /// Removes the first of a line. Returns whether there was one.
    fn wake_first(&mut self, side: Side, channel: u16, is_single: bool, woken: &mut Woken) -> bool {
        let line = self.channels[usize::from(channel)].sides[side as usize].of(is_single);
        let Some(ticket) = line.front().copied() else { return false };
        woken.push(self.remove(ticket).expect("a ticket in a line is of one that waits"));
        true
    }
}

#[cfg(test)]
mod tests {
    use super::*;
    use std::sync::Arc;
    use std::sync::atomic::{AtomicU64, Ordering::SeqCst};
    use std::task::Wake;

    struct Bit(Arc<AtomicU64>, u64);

    impl Wake for Bit {
        fn wake(self: Arc<Self>) {
            self.0.fetch_or(1 << self.1, SeqCst);
        }
    }

    /// Channels 0 to 3: a queue, a bounded queue, a broadcast and another queue.
    struct Scene {
        waiters: Waiters,
        woken: Arc<AtomicU64>,
    }

    impl Scene {
        fn new() -> Scene {
            let mut waiters = Waiters::default();
            for (is_bounded, is_broadcast) in [(false, false), (true, false), (false, true), (false, false)] {
                waiters.add_channel(is_bounded, is_broadcast);
            }
            Scene { waiters, woken: Arc::default() }
        }

        fn add(&mut self, number: u64, orders: &[Order]) -> u64 {
            let waker = Waker::from(Arc::new(Bit(Arc::clone(&self.woken), number)));
            let wishes = self.waiters.wishes(orders);
            self.waiters.add(None, wishes, &waker).0
        }

        /// The bits of those that a step wakes.
        fn commit(&mut self, operation: u32, channel: u16) -> u64 {
            let mut woken = Woken::default();
            self.waiters.wake_for(operation, channel, &mut woken);
            woken.wake();
            self.woken.swap(0, SeqCst)
        }
    }

    fn order(operation: u32, channel: u16) -> Order {
        Order::new(operation, channel)
    }

    #[test]
    fn one_is_woken_for_each_item_in_turn() {
        let mut scene = Scene::new();
        (0..3).for_each(|number| _ = scene.add(number, &[order(op::READ, 0)]));
        scene.add(3, &[order(op::READ, 1)]);
        assert_eq!(scene.commit(op::WRITE, 0), 1);
        assert_eq!(scene.commit(op::WRITE_LAST, 0), 2);
        assert_eq!(scene.commit(op::WRITE, 3), 0);
        assert_eq!(scene.commit(op::PUT_BACK, 0), 4);
        assert_eq!(scene.commit(op::WRITE, 0), 0);
        assert_eq!(scene.commit(op::WRITE, 1), 8);
        assert!(scene.waiters.is_empty());
    }

    #[test]
    fn a_waiter_that_is_woken_in_vain_keeps_its_place() {
        let mut scene = Scene::new();
        let read = [order(op::READ, 0)];
        let first = scene.add(0, &read);
        scene.add(1, &read);
        assert_eq!(scene.commit(op::WRITE, 0), 1);
        let waker = Waker::from(Arc::new(Bit(Arc::clone(&scene.woken), 0)));
        let wishes = scene.waiters.wishes(&read);
        assert_eq!(scene.waiters.add(Some(first), wishes, &waker).0, first);
        assert_eq!(scene.commit(op::WRITE, 0), 1);
        assert_eq!(scene.commit(op::WRITE, 0), 2);
    }

    #[test]
    fn a_read_with_a_write_that_never_waits_takes_one() {
        let mut scene = Scene::new();
        (0..3).for_each(|number| _ = scene.add(number, &[order(op::READ, 0), order(op::WRITE_LAST, 3)]));
        assert_eq!(scene.commit(op::WRITE, 0), 1);
        // With a write that can wait it waits for several things.
        (3..5).for_each(|number| _ = scene.add(number, &[order(op::READ, 0), order(op::WRITE_LAST, 1)]));
        assert_eq!(scene.commit(op::WRITE, 0), 0b11010);
        assert_eq!(scene.commit(op::CLOSE, 0), 0b100);
        assert!(scene.waiters.is_empty());
    }

    #[test]
    fn all_are_woken_that_wait_for_several_things() {
        let mut scene = Scene::new();
        for orders in [
            &[order(op::READ, 0), order(op::READ, 3)][..],
            &[order(op::PEEK, 0)],
            &[order(op::READ, 0), order(op::READ, 0)],
        ] {
            (0..2).for_each(|number| _ = scene.add(number, orders));
            assert_eq!(scene.commit(op::WRITE, 0), 0b11);
            assert!(scene.waiters.is_empty());
        }
    }

    #[test]
    fn each_reader_of_a_broadcast_is_woken() {
        let mut scene = Scene::new();
        (0..3).for_each(|number| _ = scene.add(number.into(), &[Order::by(op::READ, 2, number)]));
        assert_eq!(scene.commit(op::READ, 2), 0);
        assert_eq!(scene.commit(op::WRITE, 2), 0b111);
    }

    #[test]
    fn space_wakes_writers_of_bounded_queues() {
        let mut scene = Scene::new();
        (0..2).for_each(|number| _ = scene.add(number, &[order(op::WRITE, 1)]));
        assert_eq!(scene.commit(op::WRITE, 1), 0);
        assert_eq!(scene.commit(op::TRY_READ, 1), 1);
        assert_eq!(scene.commit(op::CLOSE, 1), 2);
    }

    #[test]
    fn a_wake_that_is_not_used_is_handed_on() {
        let mut scene = Scene::new();
        let read = [order(op::READ, 0)];
        let first = scene.add(0, &read);
        scene.add(1, &read);
        assert_eq!(scene.commit(op::WRITE, 0), 1);
        assert!(scene.waiters.remove(first).is_none());
        let (mut woken, wishes) = (Woken::default(), scene.waiters.wishes(&read));
        scene.waiters.hand_on(&wishes, &mut woken);
        woken.wake();
        assert_eq!(scene.woken.swap(0, SeqCst), 2);
        // One that waits for several things was woken with all others.
        scene.add(2, &read);
        let mut woken = Woken::default();
        scene.waiters.hand_on(&Wishes::any_change([0]), &mut woken);
        assert!(woken.is_empty());
    }

    #[test]
    fn any_change_wakes_a_closure() {
        for operation in [op::WRITE, op::READ, op::CLOSE] {
            let mut scene = Scene::new();
            let waker = Waker::from(Arc::new(Bit(Arc::clone(&scene.woken), 0)));
            scene.waiters.add(None, Wishes::any_change([0, 3]), &waker);
            assert_eq!(scene.commit(operation, 3), 1);
            assert!(scene.waiters.is_empty());
        }
    }
}
