//! Why a call failed. A value that was to be sent comes back in the error.

mod account;
mod atomically_timeout;
mod bound;
mod cause;
mod failure;
mod recv;
mod recv_timeout;
mod run;
mod send;
mod send_timeout;
mod subscribe;
mod try_atomically;
mod try_recv;
mod try_run;
mod try_send;

pub use account::AccountError;
pub use atomically_timeout::AtomicallyTimeoutError;
pub use bound::BoundError;
pub use cause::Cause;
pub use failure::Failure;
pub use recv::RecvError;
pub use recv_timeout::RecvTimeoutError;
pub use run::RunError;
pub use send::SendError;
pub use send_timeout::SendTimeoutError;
pub use subscribe::SubscribeError;
pub use try_atomically::TryAtomicallyError;
pub use try_recv::TryRecvError;
pub use try_run::TryRunError;
pub use try_send::TrySendError;

/// `Debug` without the value, so that an error can be unwrapped whatever it carries; `Display`; and `Error`.
macro_rules! error_with_value {
    ($name:ident, $($variant:pat => $text:expr),+ $(,)?) => {
        impl<T> std::fmt::Debug for $name<T> {
            fn fmt(&self, f: &mut std::fmt::Formatter<'_>) -> std::fmt::Result {
                write!(f, "{}({self})", stringify!($name))
            }
        }

        impl<T> std::fmt::Display for $name<T> {
            fn fmt(&self, f: &mut std::fmt::Formatter<'_>) -> std::fmt::Result {
                match self {
                    $($variant => std::fmt::Display::fmt(&$text, f),)+
                }
            }
        }

        impl<T> std::error::Error for $name<T> {}
    };
}

/// `Display` and `Error`.
macro_rules! error {
    ($name:ident, $($variant:pat => $text:expr),+ $(,)?) => {
        impl std::fmt::Display for $name {
            fn fmt(&self, f: &mut std::fmt::Formatter<'_>) -> std::fmt::Result {
                match self {
                    $($variant => std::fmt::Display::fmt(&$text, f),)+
                }
            }
        }

        impl std::error::Error for $name {}
    };
}

use {error, error_with_value};
