use std::sync::{Condvar, Mutex, MutexGuard, PoisonError};
use std::time::Instant;

/// Tells a thread when the next load has taken too long for which tasks wait. (A thread that waits sees to that by itself.)
#[derive(Debug, Default)]
pub(crate) struct Timer {
    due: Mutex<Due>,
    rings: Condvar,
}

#[derive(Debug, Default)]
struct Due {
    next: Option<Instant>,
    is_ended: bool,
}

impl Timer {
    fn lock(&self) -> MutexGuard<'_, Due> {
        self.due.lock().unwrap_or_else(PoisonError::into_inner)
    }

    /// Something is due then.
    pub fn set(&self, moment: Instant) {
        let mut due = self.lock();
        if due.next.is_none_or(|next| moment < next) {
            due.next = Some(moment);
            self.rings.notify_one();
        }
    }

    /// Waits until something is due, and answers whether it is; it isn't, once the timer is ended.
    pub fn wait(&self) -> bool {
        let mut due = self.lock();
        while !due.is_ended {
            let left = due.next.map(|next| next.saturating_duration_since(Instant::now()));
            due = match left {
                Some(left) if left.is_zero() => {
                    due.next = None;
                    return true;
                }
                Some(left) => self.rings.wait_timeout(due, left).unwrap_or_else(PoisonError::into_inner).0,
                None => self.rings.wait(due).unwrap_or_else(PoisonError::into_inner),
            };
        }
        false
    }

    /// Ends who waits.
    pub fn end(&self) {
        self.lock().is_ended = true;
        self.rings.notify_all();
    }
}
