//! Futures with a time limit.
use std::future::{poll_fn, Future};
use std::pin::pin;
use std::task::Poll;
use std::time::Duration;

/// The time is up.
#[derive(Clone, Copy, Debug, PartialEq, Eq)]
pub struct TimeIsUp;

/// What the future comes to, for so long at most. No clock is asked where it needn't wait.
pub async fn within<F: Future>(limit: Duration, future: F) -> Result<F::Output, TimeIsUp> {
    let mut future = pin!(future);
    let first = poll_fn(|context| Poll::Ready(future.as_mut().poll(context))).await;
    match first {
        Poll::Ready(output) => Ok(output),
        Poll::Pending if limit.is_zero() => Err(TimeIsUp),
        Poll::Pending => tokio::time::timeout(limit, future).await.map_err(|_| TimeIsUp),
    }
}
