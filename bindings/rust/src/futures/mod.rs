//! Waiting without a thread, over `std::future` only.

mod recv_future;
mod run_future;
mod send_future;
mod stream;
mod wait;

pub use recv_future::RecvFuture;
pub use run_future::RunFuture;
pub use send_future::SendFuture;
pub use stream::RecvStream;
