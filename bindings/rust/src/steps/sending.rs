use super::{Step, Write};
use crate::abi::{Order, Said};
use crate::error::SendError;
use crate::inner::Inner;
use crate::kinds::Kind;
use crate::shared::Shared;
use std::sync::Arc;

/// A step that writes a value and replies a `Result`.
#[derive(Debug)]
pub struct Sending<'a, T, K: Kind>(pub Write<'a, T, K>);

impl<T: Send + 'static, K: Kind> Step for Sending<'_, T, K> {
    type Reply = Result<(), SendError<T>>;

    #[inline]
    fn order(&mut self, shared: &mut Shared) -> Order {
        self.0.order(shared)
    }

    #[inline]
    fn reply(&mut self, shared: &mut Shared, said: Said) -> Self::Reply {
        self.0.result(shared, said).map_err(SendError::Closed)
    }

    #[inline]
    fn undo(&mut self, shared: &mut Shared) {
        self.0.undo(shared);
    }

    fn domain(&self) -> &Arc<Inner> {
        self.0.domain()
    }
}
