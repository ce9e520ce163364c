//! What an executor does: it polls a task as it is woken, and gives it up after a time.
use std::future::Future;
use std::pin::pin;
use std::sync::Arc;
use std::task::{Context, Poll, Wake, Waker};
use std::thread::{self, Thread};
use std::time::{Duration, Instant};

struct Unparks(Thread);

impl Wake for Unparks {
    fn wake(self: Arc<Self>) {
        self.0.unpark();
    }
}

/// One that wakes this thread.
pub fn waker() -> Waker {
    Waker::from(Arc::new(Unparks(thread::current())))
}

/// What the future is answered in so much time; then it is dropped.
pub fn block_on<T>(future: impl Future<Output = T>, most: Duration) -> Option<T> {
    let (mut future, waker, until) = (pin!(future), waker(), Instant::now() + most);
    loop {
        if let Poll::Ready(answer) = future.as_mut().poll(&mut Context::from_waker(&waker)) {
            return Some(answer);
        }
        let left = until.saturating_duration_since(Instant::now());
        if left.is_zero() {
            return None;
        }
        thread::park_timeout(left);
    }
}
