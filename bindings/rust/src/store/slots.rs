use super::Slot;

/// What a read says that finds no value.
pub const LOST: &str = "a value of this channel was kept by an `Item` beyond a transaction that rolled back";

/// The values of one type in the queues of a domain, by key. All queues share it, so that a key can go from one queue
/// to another.
#[derive(Debug)]
pub struct Slots<T> {
    slots: Vec<Slot<T>>,
    free: Vec<usize>,
}

impl<T> Default for Slots<T> {
    fn default() -> Slots<T> {
        Slots { slots: Vec::new(), free: Vec::new() }
    }
}

impl<T> Slots<T> {
    /// Stores a value. Returns its key.
    #[inline]
    pub fn put(&mut self, value: T) -> u64 {
        let place = match self.free.pop() {
            Some(place) => place,
            None => {
                self.slots.push(Slot::Free);
                self.slots.len() - 1
            }
        };
        self.slots[place] = Slot::Value(value);
        place as u64
    }

    /// Takes the value out and frees its key.
    ///
    /// # Panics
    ///
    /// If an `Item` has kept the value.
    #[inline]
    pub fn take(&mut self, key: u64) -> T {
        match self.replace(key, Slot::Free) {
            Slot::Value(value) => {
                self.free.push(key as usize);
                value
            }
            Slot::Lost => panic!("{LOST}"),
            Slot::Free | Slot::Held(_) => unreachable!("a key is in one channel, once"),
        }
    }

    /// The value of a key.
    ///
    /// # Panics
    ///
    /// If an `Item` has kept the value.
    pub fn get(&self, key: u64) -> &T {
        match &self.slots[key as usize] {
            Slot::Value(value) => value,
            Slot::Lost => panic!("{LOST}"),
            Slot::Free | Slot::Held(_) => unreachable!("a key is in one channel, once"),
        }
    }

    /// Replaces what a key has.
    pub fn replace(&mut self, key: u64, slot: Slot<T>) -> Slot<T> {
        std::mem::replace(&mut self.slots[key as usize], slot)
    }

    /// Frees a key.
    pub fn free(&mut self, key: u64) {
        self.slots[key as usize] = Slot::Free;
        self.free.push(key as usize);
    }
}
