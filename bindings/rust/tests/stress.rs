//! All six kinds at once, under many threads and in many ways: each item once, and those of one producer in order.

use std::sync::Arc;
use std::thread;
use std::time::Duration;
use yalwythen::kinds::{Bounded, BoundedClosable, Broadcast, BroadcastClosable, Closable, Queue, QueueKind};
use yalwythen::{Domain, Receiver, RecvTimeoutError, Sender, Subscriber, TryRecvError};

const PRODUCERS: u64 = 3;
const CONSUMERS: u64 = 3;
const EACH: u64 = 1_500;

/// The producer and the number of an item.
type Item = (u64, u64);
type Cast = Arc<Item>;

#[derive(Clone)]
struct Senders {
    domain: Domain,
    queue: Sender<Item, Queue>,
    bounded: Sender<Item, Bounded>,
    closable: Sender<Item, Closable>,
    both: Sender<Item, BoundedClosable>,
    cast: Sender<Cast, Broadcast>,
    closing: Sender<Cast, BroadcastClosable>,
}

#[derive(Clone)]
struct Receivers {
    domain: Domain,
    queue: Receiver<Item, Queue>,
    bounded: Receiver<Item, Bounded>,
    closable: Receiver<Item, Closable>,
    both: Receiver<Item, BoundedClosable>,
}

impl Senders {
    /// Sends one item to each channel, in one of several ways.
    fn send(&self, producer: u64, number: u64) {
        let (item, short) = ((producer, number), Duration::from_micros(50));
        match number % 4 {
            0 => self.send_singly(item),
            1 => {
                let writes = (self.queue.write(item), self.bounded.write(item));
                self.domain.run(writes).unwrap();
                let writes = (self.closable.write(item), self.both.write(item), self.cast.write(Arc::new(item)));
                assert_eq!(self.domain.run(writes).unwrap(), (Ok(()), Ok(()), ()));
                self.closing.send(Arc::new(item)).unwrap();
            }
            2 => {
                self.queue.try_send(item).unwrap();
                while self.bounded.send_timeout(item, short).is_err() {}
                while self.domain.select().on(self.both.write(item), |sent| sent.unwrap()).wait_timeout(short)
                    == Ok(None)
                {}
                self.closable.send(item).unwrap();
                let writes = (self.cast.write(Arc::new(item)), self.closing.write(Arc::new(item)));
                assert_eq!(self.domain.run(writes).unwrap(), ((), Ok(())));
            }
            _ => self
                .domain
                .atomically(|tx| {
                    tx.write(&self.queue, item)?;
                    tx.write(&self.bounded, item)?;
                    tx.write(&self.closable, item)?.unwrap();
                    tx.write(&self.both, item)?.unwrap();
                    tx.write(&self.cast, Arc::new(item))?;
                    tx.write(&self.closing, Arc::new(item))?.unwrap();
                    Ok(())
                })
                .unwrap(),
        }
    }

    fn send_singly(&self, item: Item) {
        self.queue.send(item).unwrap();
        self.bounded.send(item).unwrap();
        self.closable.send(item).unwrap();
        self.both.send(item).unwrap();
        self.cast.send(Arc::new(item)).unwrap();
        self.closing.send(Arc::new(item)).unwrap();
    }
}

/// One item, read in one of several ways.
fn next<K>(domain: &Domain, rx: &Receiver<Item, K>, turn: u64) -> Option<Item>
where
    K: QueueKind<Read<Item> = Option<Item>>,
{
    match turn % 5 {
        0 => rx.recv().ok(),
        1 => loop {
            match rx.try_recv() {
                Err(TryRecvError::Empty) => thread::yield_now(),
                received => break received.ok(),
            }
        },
        2 => loop {
            match rx.recv_timeout(Duration::from_micros(50)) {
                Err(RecvTimeoutError::Timeout) => {}
                received => break received.ok(),
            }
        },
        3 => domain.run((rx.peek(), rx.read())).unwrap().1,
        _ => domain.select().on(rx.read(), |item| item).wait().unwrap(),
    }
}

/// Reads the queues that end, and then what is left in the others.
fn consume(ends: &Receivers, mut turn: u64) -> [Vec<Item>; 4] {
    let mut all: [Vec<Item>; 4] = Default::default();
    let mut open = true;
    while open {
        turn += 1;
        let (one, other) = (next(&ends.domain, &ends.closable, turn), next(&ends.domain, &ends.both, turn / 2));
        open = one.is_some() || other.is_some();
        all[2].extend(one);
        all[3].extend(other);
        // One of each of the queues that do not end: as many were written.
        let both = one.is_some().then(|| ends.domain.run((ends.queue.read(), ends.bounded.read())).unwrap());
        all[0].extend(both.map(|both| both.0));
        all[1].extend(both.map(|both| both.1));
    }
    all
}

fn all_items() -> Vec<Item> {
    (0..PRODUCERS).flat_map(|producer| (0..EACH).map(move |number| (producer, number))).collect()
}

fn assert_in_order(items: &[Item]) {
    for producer in 0..PRODUCERS {
        assert!(items.iter().filter(|item| item.0 == producer).is_sorted());
    }
}

fn hear<K: yalwythen::kinds::BroadcastKind>(subscriber: Subscriber<Item, K>) -> Vec<Item> {
    (0..PRODUCERS * EACH).map(|_| *subscriber.recv().unwrap()).collect()
}

#[test]
fn each_item_of_each_kind_comes_once_and_in_order() {
    let domain = Domain::new();
    let ((queue, queue_rx), (bounded, bounded_rx)) = (domain.queue(), domain.bounded(8).unwrap());
    let ((closable, closable_rx), (both, both_rx)) = (domain.closable(), domain.bounded_closable(8).unwrap());
    let ((cast, cast_rx), (closing, closing_rx)) = (domain.broadcast(), domain.broadcast_closable());
    let senders = Senders { domain: domain.clone(), queue, bounded, closable, both, cast, closing };
    let receivers = Receivers { domain, queue: queue_rx, bounded: bounded_rx, closable: closable_rx, both: both_rx };
    let casts = [cast_rx.clone(), cast_rx].map(|subscriber| thread::spawn(move || hear(subscriber)));
    let closings = [closing_rx.clone(), closing_rx]
        .map(|subscriber| thread::spawn(move || subscriber.iter().map(|item| *item).collect::<Vec<Item>>()));
    let consumers: Vec<_> = (0..CONSUMERS)
        .map(|turn| {
            let receivers = receivers.clone();
            thread::spawn(move || consume(&receivers, turn))
        })
        .collect();
    let producers: Vec<_> = (0..PRODUCERS)
        .map(|producer| {
            let senders = senders.clone();
            thread::spawn(move || (0..EACH).for_each(|number| senders.send(producer, number)))
        })
        .collect();
    drop(senders);
    producers.into_iter().for_each(|producer| producer.join().unwrap());
    let mut by_kind: [Vec<Item>; 4] = Default::default();
    for consumer in consumers {
        let all = consumer.join().unwrap();
        all.iter().for_each(|items| assert_in_order(items));
        by_kind.iter_mut().zip(all).for_each(|(to, items)| to.extend(items));
    }
    for mut items in by_kind {
        items.sort_unstable();
        assert!(items == all_items());
    }
    for heard in casts.into_iter().chain(closings).map(|thread| thread.join().unwrap()).collect::<Vec<_>>() {
        assert_in_order(&heard);
        assert_eq!(heard.len() as u64, PRODUCERS * EACH);
    }
}

/// Three threads move items round a ring of queues by closures and by steps, until all items have gone round.
#[test]
fn moves_round_a_ring_lose_nothing() {
    const ITEMS: u64 = 20;
    const MOVES: u64 = 2_000;
    let domain = Domain::new();
    let ends: Vec<_> = (0..3).map(|_| domain.bounded::<u64>(ITEMS as usize).unwrap()).collect();
    (0..ITEMS).for_each(|item| ends[0].0.send(item).unwrap());
    thread::scope(|scope| {
        for place in 0..3 {
            let (domain, from, to) = (&domain, &ends[place].1, &ends[(place + 1) % 3].0);
            scope.spawn(move || {
                for turn in 0..MOVES {
                    match turn % 3 {
                        0 => domain.run(from.pass_on(to)).unwrap(),
                        1 => domain.select().on(from.pass_on(to), |()| ()).wait().unwrap(),
                        _ => domain
                            .atomically(|tx| {
                                let item = tx.read(from)?;
                                tx.write(to, item)
                            })
                            .unwrap(),
                    }
                }
            });
        }
    });
    let mut left: Vec<u64> = ends.iter().flat_map(|(_, rx)| rx.try_iter()).collect();
    left.sort_unstable();
    assert!(left.into_iter().eq(0..ITEMS));
}

#[test]
fn forty_threads_share_a_queue() {
    const MANY: u64 = 500;
    let (tx, rx) = yalwythen::bounded_closable::<Item>(8).unwrap();
    let writers: Vec<_> = (0..20)
        .map(|writer| {
            let tx = tx.clone();
            thread::spawn(move || (0..MANY).for_each(|number| tx.send((writer, number)).unwrap()))
        })
        .collect();
    drop(tx);
    let readers: Vec<_> = (0..20)
        .map(|_| {
            let rx = rx.clone();
            thread::spawn(move || rx.into_iter().collect::<Vec<Item>>())
        })
        .collect();
    writers.into_iter().for_each(|writer| writer.join().unwrap());
    let mut all = Vec::new();
    for reader in readers {
        let got = reader.join().unwrap();
        (0..20).for_each(|writer| assert!(got.iter().filter(|item| item.0 == writer).is_sorted()));
        all.extend(got);
    }
    all.sort_unstable();
    assert!(all.into_iter().eq((0..20).flat_map(|writer| (0..MANY).map(move |number| (writer, number)))));
}
