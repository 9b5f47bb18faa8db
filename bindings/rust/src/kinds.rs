//! The kinds of channels, as types: what a kind lacks does not compile.

use crate::store::Stores;
use std::any::Any;

/// A kind of channel.
///
/// The trait is implemented by the six types of this module only. It says what a step on a channel replies: a read of a
/// channel that can be closed replies `None` at its end, and a write to it may return its value.
pub trait Kind: Send + Sync + 'static {
    /// What a read replies: `V`, or `Option<V>` if the channel can be closed.
    type Read<V>;
    /// What a write of a `V` replies: `()`, or `Result<(), V>` if the channel can be closed.
    type Written<V>;
    #[doc(hidden)]
    const NUMBER: u64;
    #[doc(hidden)]
    const BOUNDED: bool;
    #[doc(hidden)]
    const CLOSES: bool;
    #[doc(hidden)]
    fn read<V>(value: Option<V>) -> Self::Read<V>;
    #[doc(hidden)]
    fn written<V>(result: Result<(), V>) -> Self::Written<V>;
    #[doc(hidden)]
    fn put<T: Send + 'static>(stores: &mut Stores, store: usize, value: T) -> u64;
    #[doc(hidden)]
    fn take_back<T: Send + 'static>(stores: &mut Stores, store: usize, body: u64) -> T;
    #[doc(hidden)]
    fn trim<T: Send + 'static>(stores: &mut Stores, store: usize, body: u64) -> Option<Box<dyn Any + Send>>;
}

/// A kind of queue: each value is read once.
pub trait QueueKind: Kind {}

/// A kind of broadcast: each subscriber reads every value.
pub trait BroadcastKind: Kind {}

/// A kind with a bound.
pub trait BoundKind: QueueKind {}

/// A kind that can be closed.
pub trait CloseKind: Kind {}

macro_rules! store {
    (queue) => {
        fn put<T: Send + 'static>(stores: &mut Stores, store: usize, value: T) -> u64 {
            stores.slots(store).put(value)
        }

        fn take_back<T: Send + 'static>(stores: &mut Stores, store: usize, body: u64) -> T {
            stores.slots(store).take(body)
        }

        fn trim<T: Send + 'static>(_stores: &mut Stores, _store: usize, _body: u64) -> Option<Box<dyn Any + Send>> {
            None
        }
    };
    (broadcast) => {
        fn put<T: Send + 'static>(stores: &mut Stores, store: usize, value: T) -> u64 {
            stores.feed(store).push(value)
        }

        fn take_back<T: Send + 'static>(stores: &mut Stores, store: usize, body: u64) -> T {
            stores.feed(store).take_back(body)
        }

        fn trim<T: Send + 'static>(stores: &mut Stores, store: usize, body: u64) -> Option<Box<dyn Any + Send>> {
            let values = stores.feed::<T>(store).trim(body);
            if values.is_empty() { None } else { Some(Box::new(values)) }
        }
    };
}

macro_rules! replies {
    (open) => {
        type Read<V> = V;
        type Written<V> = ();
        const CLOSES: bool = false;

        fn read<V>(value: Option<V>) -> V {
            value.expect("a channel that cannot be closed has no end")
        }

        fn written<V>(result: Result<(), V>) {
            assert!(result.is_ok(), "a channel that cannot be closed is open");
        }
    };
    (closable) => {
        type Read<V> = Option<V>;
        type Written<V> = Result<(), V>;
        const CLOSES: bool = true;

        fn read<V>(value: Option<V>) -> Option<V> {
            value
        }

        fn written<V>(result: Result<(), V>) -> Result<(), V> {
            result
        }
    };
}

macro_rules! kind {
    ($(#[$doc:meta])* $name:ident, $number:literal, $bounded:literal, $store:ident, $replies:ident, $($is:ident)*) => {
        $(#[$doc])*
        #[derive(Debug, Clone, Copy, PartialEq, Eq)]
        pub enum $name {}

        impl Kind for $name {
            const NUMBER: u64 = $number;
            const BOUNDED: bool = $bounded;
            replies!($replies);
            store!($store);
        }

        $(impl $is for $name {})*
    };
}

kind!(
    /// A queue without a bound that cannot be closed. Haskell calls it `TQueue`.
    Queue, 0, false, queue, open, QueueKind
);
kind!(
    /// A queue with a bound that cannot be closed: `TBQueue`.
    Bounded, 1, true, queue, open, QueueKind BoundKind
);
kind!(
    /// A queue without a bound that can be closed: `TMQueue`.
    Closable, 2, false, queue, closable, QueueKind CloseKind
);
kind!(
    /// A queue with a bound that can be closed: `TBMQueue`.
    BoundedClosable, 3, true, queue, closable, QueueKind BoundKind CloseKind
);
kind!(
    /// A broadcast that cannot be closed: `TChan`.
    Broadcast, 4, false, broadcast, open, BroadcastKind
);
kind!(
    /// A broadcast that can be closed: `TMChan`.
    BroadcastClosable, 5, false, broadcast, closable, BroadcastKind CloseKind
);
