use super::entry::Entry;
use super::hold::Hold;
use crate::shared::Shared;
use std::any::Any;
use std::rc::Rc;

/// The entries of an open transaction.
#[derive(Default)]
pub struct Journal {
    entries: Vec<Entry>,
    /// Whether a value could not be put back, because an `Item` has left its closure.
    pub has_lost: bool,
}

impl Journal {
    pub fn len(&self) -> usize {
        self.entries.len()
    }

    pub fn push(&mut self, entry: Entry) {
        self.entries.push(entry);
    }

    /// Notes that a value was taken, or that it is in a channel.
    pub fn hold(&mut self, held: Rc<dyn Hold>, is_taken: bool) {
        held.entries().set(held.entries().get() + 1);
        let was_taken = held.is_taken().replace(is_taken);
        self.entries.push(Entry::Held { held, was_taken });
    }

    /// The value of an entry.
    pub fn held(&self, place: usize) -> Rc<dyn Any> {
        match &self.entries[place] {
            Entry::Held { held, .. } => Rc::clone(held).into_any(),
            _ => unreachable!("a slot names an entry that holds its value"),
        }
    }

    /// Undoes all entries from this place on.
    pub fn roll_back(&mut self, place: usize, shared: &mut Shared) {
        while self.entries.len() > place {
            match self.entries.pop() {
                Some(Entry::Held { held, was_taken }) => {
                    held.is_taken().set(was_taken);
                    if is_last(&*held) {
                        self.has_lost |= !held.restore(shared);
                    }
                }
                Some(Entry::New { store, body, roll_back, .. }) => roll_back(shared, store, body),
                Some(Entry::Heard { .. }) | None => {}
            }
        }
    }

    /// Settles all entries. Returns the values that the transaction has taken.
    pub fn commit(&mut self, shared: &mut Shared) -> Vec<Rc<dyn Hold>> {
        let mut taken = Vec::new();
        for entry in self.entries.drain(..) {
            match entry {
                Entry::Held { held, .. } if !is_last(&*held) => {}
                Entry::Held { held, .. } if held.is_taken().get() => {
                    held.release(shared);
                    taken.push(held);
                }
                Entry::Held { held, .. } => self.has_lost |= !held.restore(shared),
                Entry::New { store, body, commit, .. } => commit(shared, store, body),
                Entry::Heard { store, reader, number, commit } => commit(shared, store, reader, number),
            }
        }
        taken
    }
}

/// Counts an entry down. Returns whether it was the last one of its value.
fn is_last(held: &dyn Hold) -> bool {
    held.entries().set(held.entries().get() - 1);
    held.entries().get() == 0
}
