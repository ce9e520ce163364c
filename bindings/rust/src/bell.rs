use crate::marks::Marks;
use std::sync::atomic::{AtomicBool, Ordering};
use std::sync::{Condvar, Mutex, PoisonError};

/// Tells workers which shards have work for them.
#[derive(Debug, Default)]
pub(crate) struct Bell {
    rung: Marks,
    ended: AtomicBool,
    lock: Mutex<usize>, // the shard that was served last
    rings: Condvar,
}

impl Bell {
    /// Says that the shard has work. A worker comes.
    pub fn ring(&self, shard: usize) {
        if self.rung.add(shard) {
            drop(self.lock.lock().unwrap_or_else(PoisonError::into_inner)); // (none is between its look and its sleep)
            self.rings.notify_one();
        }
    }

    /// Waits for a shard with work, and answers it; none, once the bell is ended.
    pub fn next(&self) -> Option<usize> {
        let mut last = self.lock.lock().unwrap_or_else(PoisonError::into_inner);
        loop {
            if self.ended.load(Ordering::SeqCst) {
                return None;
            }
            // (the next shard after the last one, so that none waits behind another for good)
            if let Some(shard) = self.rung.take_after(*last) {
                *last = shard;
                return Some(shard);
            }
            last = self.rings.wait(last).unwrap_or_else(PoisonError::into_inner);
        }
    }

    /// Ends all that wait, and all that would.
    pub fn end(&self) {
        self.ended.store(true, Ordering::SeqCst);
        drop(self.lock.lock().unwrap_or_else(PoisonError::into_inner));
        self.rings.notify_all();
    }
}

#[cfg(test)]
mod tests {
    use super::Bell;

    #[test]
    fn shards_are_served_in_turn() {
        let bell = Bell::default();
        for shard in [3, 0, 4095, 3] {
            bell.ring(shard);
        }
        let mut served = [bell.next(), bell.next()];
        bell.ring(3);
        assert_eq!(served, [Some(3), Some(4095)]);
        served = [bell.next(), bell.next()];
        assert_eq!(served, [Some(0), Some(3)]);
        bell.ring(1);
        bell.end();
        assert_eq!(bell.next(), None);
    }
}
