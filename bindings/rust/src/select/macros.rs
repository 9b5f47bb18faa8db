/// Runs the first of several alternatives that need not wait, in the order in which they are written.
///
/// An alternative is one of these, followed by `=>` and an expression:
///
/// - `recv(rx) -> name`: a receive from a [`Receiver`](crate::Receiver) or a [`Subscriber`](crate::Subscriber). The
///   name is a `Result<T, RecvError>`.
/// - `send(tx, value) -> name`: a send. The name is a `Result<(), SendError<T>>`. The value is evaluated even if
///   another alternative runs.
/// - `run(steps) -> name`: a whole transaction. The name is its replies.
/// - `default`, at the end: what is done if all others must wait.
/// - `default(timeout)`, at the end: what is done if all others must wait until the time is over.
///
/// Without a default it blocks until an alternative need not wait. The expressions run without the domain's lock, and
/// may use `?`, `break` and `return`.
///
/// ```
/// use yalwythen::{Domain, select};
///
/// let domain = Domain::new();
/// let ((tx, rx), (log, _logged)) = (domain.closable(), domain.queue());
/// tx.send(1).unwrap();
/// drop(tx);
/// let mut sum = 0;
/// loop {
///     select! {
///         recv(rx) -> received => match received {
///             Ok(number) => sum += number,
///             Err(_) => break,
///         },
///         default => log.send("nothing to do").unwrap(),
///     }
/// }
/// assert_eq!(sum, 1);
/// ```
///
/// # Panics
///
/// If the channels are of different domains, or if allocation fails. [`Domain::select`](crate::Domain::select) returns
/// an error instead.
#[macro_export]
macro_rules! select {
    ($($tokens:tt)+) => {
        $crate::__select!(@read [] $($tokens)+)
    };
}

/// Reads the alternatives one by one into a list, and then writes the selection.
#[doc(hidden)]
#[macro_export]
macro_rules! __select {
    // The end, and the two defaults.
    (@read [$($arms:tt)+]) => {
        $crate::__select!(@write [$($arms)+] (wait))
    };
    (@read [$($arms:tt)+] default => $body:expr $(,)?) => {
        $crate::__select!(@write [$($arms)+] (now $body))
    };
    (@read [$($arms:tt)+] default() => $body:expr $(,)?) => {
        $crate::__select!(@write [$($arms)+] (now $body))
    };
    (@read [$($arms:tt)+] default($timeout:expr) => $body:expr $(,)?) => {
        $crate::__select!(@write [$($arms)+] (timeout $timeout, $body))
    };
    // An alternative whose expression is a block, with or without a comma.
    (@read [$($arms:tt)*] $kind:ident($($of:tt)*) -> $name:pat => $body:block, $($rest:tt)*) => {
        $crate::__select!(@add [$($arms)*] $kind [$($of)*] [$name] [$body] $($rest)*)
    };
    (@read [$($arms:tt)*] $kind:ident($($of:tt)*) -> $name:pat => $body:block $($rest:tt)*) => {
        $crate::__select!(@add [$($arms)*] $kind [$($of)*] [$name] [$body] $($rest)*)
    };
    (@read [$($arms:tt)*] $kind:ident($($of:tt)*) -> $name:pat => $body:expr, $($rest:tt)*) => {
        $crate::__select!(@add [$($arms)*] $kind [$($of)*] [$name] [$body] $($rest)*)
    };
    (@read [$($arms:tt)*] $kind:ident($($of:tt)*) -> $name:pat => $body:expr) => {
        $crate::__select!(@add [$($arms)*] $kind [$($of)*] [$name] [$body])
    };
    // What an alternative runs.
    (@add [$($arms:tt)*] recv [$end:expr] $name:tt $body:tt $($rest:tt)*) => {
        $crate::__select!(@read [$($arms)* ([$end.receiving()] $name $body)] $($rest)*)
    };
    (@add [$($arms:tt)*] send [$end:expr, $value:expr $(,)?] $name:tt $body:tt $($rest:tt)*) => {
        $crate::__select!(@read [$($arms)* ([$end.sending($value)] $name $body)] $($rest)*)
    };
    (@add [$($arms:tt)*] run [$steps:expr] $name:tt $body:tt $($rest:tt)*) => {
        $crate::__select!(@read [$($arms)* ([$steps] $name $body)] $($rest)*)
    };
    // The selection: the n-th alternative has n - 1 times `Other` around it.
    (@write $arms:tt $default:tt) => {
        $crate::__select!(@on [$crate::Select::unbound()] [] $arms $default $arms)
    };
    (@on [$select:expr] [$($around:tt)*] [([$steps:expr] $name:tt $body:tt)] $default:tt $arms:tt) => {
        $crate::__select!(@end
            [$select.on($steps, |replies| $crate::__select!(@wrap [$($around)*] replies))]
            $default $arms)
    };
    (@on [$select:expr] [$($around:tt)*] [([$steps:expr] $name:tt $body:tt) $($more:tt)+] $default:tt $arms:tt) => {
        $crate::__select!(@on
            [$select.on($steps, |replies| $crate::__select!(@wrap [$($around)*] $crate::Choice::This(replies)))]
            [$($around)* +] [$($more)+] $default $arms)
    };
    (@wrap [] $choice:expr) => { $choice };
    (@wrap [+ $($around:tt)*] $choice:expr) => {
        $crate::Choice::Other($crate::__select!(@wrap [$($around)*] $choice))
    };
    (@end [$select:expr] (wait) $arms:tt) => {
        match $crate::__selected($select.wait()) { choice => $crate::__select!(@match choice $arms) }
    };
    (@end [$select:expr] (now $default:expr) $arms:tt) => {
        match $crate::__selected($select.now()) {
            ::std::option::Option::Some(choice) => $crate::__select!(@match choice $arms),
            ::std::option::Option::None => $default,
        }
    };
    (@end [$select:expr] (timeout $timeout:expr, $default:expr) $arms:tt) => {
        match $crate::__selected($select.wait_timeout($timeout)) {
            ::std::option::Option::Some(choice) => $crate::__select!(@match choice $arms),
            ::std::option::Option::None => $default,
        }
    };
    (@match $choice:ident [($steps:tt [$name:pat] [$body:expr])]) => {
        match $choice { $name => $body }
    };
    (@match $choice:ident [($steps:tt [$name:pat] [$body:expr]) $($more:tt)+]) => {
        match $choice {
            $crate::Choice::This($name) => $body,
            $crate::Choice::Other(choice) => $crate::__select!(@match choice [$($more)+]),
        }
    };
}

/// The choice of a [`select!`](crate::select!).
#[doc(hidden)]
pub fn __selected<R>(result: Result<R, crate::RunError>) -> R {
    result.unwrap_or_else(|error| panic!("a selection failed: {error}"))
}
