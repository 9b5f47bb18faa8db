/// A place for one value.
#[derive(Debug)]
pub enum Slot<T> {
    /// No value.
    Free,
    /// The value.
    Value(T),
    /// The open transaction holds the value: the place of its entry in the journal.
    Held(usize),
    /// The value was kept by an `Item` beyond a transaction that was rolled back.
    Lost,
}
