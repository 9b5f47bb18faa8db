//! Steps of transactions, with typed replies.

mod closing;
mod next;
mod pass_on;
mod peek;
mod read;
mod reads;
mod recv;
mod sending;
mod single;
mod step;
mod trial;
mod tuples;
mod write;

pub use closing::Closing;
pub use next::Next;
pub use pass_on::PassOn;
pub use peek::Peek;
pub use read::Read;
pub use reads::Reads;
pub use recv::Recv;
pub use sending::Sending;
pub use single::Single;
pub use step::Step;
pub use trial::Trial;
pub use write::Write;

use crate::inner::Inner;
use crate::shared::Shared;
use std::sync::Arc;

/// What can run as one transaction: a step, or a tuple of up to eight.
///
/// Steps are made by ends, as [`Receiver::read`](crate::Receiver::read) or [`Sender::write`](crate::Sender::write), and
/// run by [`Domain::run`](crate::Domain::run) or a [`Select`](crate::Select). They own the values that they are to
/// write until they commit.
pub trait Steps {
    /// The replies: of a tuple, a tuple.
    type Replies;

    /// Appends the orders of these steps, and stores the values that they write.
    #[doc(hidden)]
    fn put(&mut self, shared: &mut Shared);

    /// Reads the replies of these steps, which committed.
    #[doc(hidden)]
    fn committed(&mut self, shared: &mut Shared) -> Self::Replies;

    /// Takes the values back, since these steps did not commit.
    #[doc(hidden)]
    fn back(&mut self, shared: &mut Shared);

    /// Whether all steps are of this domain.
    #[doc(hidden)]
    fn is_of(&self, inner: &Arc<Inner>) -> bool;

    /// The domain of the first step.
    #[doc(hidden)]
    fn inner(&self) -> Option<&Arc<Inner>>;
}
