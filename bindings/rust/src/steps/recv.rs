use super::{Reads, Step};
use crate::abi::{Order, Said};
use crate::error::RecvError;
use crate::inner::Inner;
use crate::shared::Shared;
use std::sync::Arc;

/// A step that reads one value and replies a `Result`.
#[derive(Debug)]
pub struct Recv<R>(pub R);

impl<R: Reads> Step for Recv<R> {
    type Reply = Result<R::Value, RecvError>;

    #[inline]
    fn order(&mut self, shared: &mut Shared) -> Order {
        self.0.order(shared)
    }

    #[inline]
    fn reply(&mut self, shared: &mut Shared, said: Said) -> Self::Reply {
        self.0.value(shared, said).ok_or(RecvError::Closed)
    }

    fn domain(&self) -> &Arc<Inner> {
        self.0.domain()
    }
}
