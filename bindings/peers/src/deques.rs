//! A broadcast by a deque for each reader.

use crate::job::READERS;
use std::collections::VecDeque;
use std::sync::{Condvar, Mutex};

/// A `VecDeque` for each reader under one mutex.
pub struct Deques {
    items: Mutex<[VecDeque<u64>; READERS]>,
    changed: Condvar,
}

impl Deques {
    pub fn new() -> Deques {
        Deques { items: Mutex::new([const { VecDeque::new() }; READERS]), changed: Condvar::new() }
    }

    pub fn write(&self, item: u64) {
        self.items.lock().unwrap().iter_mut().for_each(|items| items.push_back(item));
        self.changed.notify_all();
    }

    pub fn read(&self, reader: usize) -> u64 {
        let items = self.items.lock().unwrap();
        let mut items = self.changed.wait_while(items, |items| items[reader].is_empty()).unwrap();
        items[reader].pop_front().unwrap()
    }
}
