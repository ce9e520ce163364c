//! How many bytes may be in flight, and how long one may stand still.
use std::hint::black_box;
use std::sync::atomic::{AtomicUsize, Ordering::Relaxed};
use std::sync::Arc;
use std::time::Duration;

/// How long a connection may stand still.
#[derive(Clone, Copy, Debug)]
pub struct Patience {
    /// Between two commands. None: for good.
    pub idle: Option<Duration>,
    /// In the midst of a command, or with an answer that it doesn't take.
    pub stall: Duration,
    /// For a whole command, or the answers that wait at once.
    pub command: Duration,
}

/// Whether there is memory for so many bytes just now.
#[must_use]
pub fn has_memory(bytes: usize) -> bool {
    let mut tried: Vec<u8> = Vec::new();
    let has_some = tried.try_reserve_exact(bytes).is_ok();
    // (else nothing would be asked for)
    black_box(&tried);
    has_some
}

/// The bytes of bodies that are being received, and of answers that wait, of all connections together.
#[derive(Debug)]
pub struct InFlight {
    left: AtomicUsize,
    most: usize,
}

impl InFlight {
    #[must_use]
    pub fn new(most: usize) -> Arc<InFlight> {
        Arc::new(InFlight { left: AtomicUsize::new(most), most })
    }

    /// The bytes that are left.
    #[must_use]
    pub fn left(&self) -> usize {
        self.left.load(Relaxed)
    }
}

/// What one connection has of them. It is given back as this is dropped.
#[derive(Debug)]
pub struct Share {
    of: Arc<InFlight>,
    bytes: usize,
}

impl Share {
    #[must_use]
    pub fn none_of(of: &Arc<InFlight>) -> Share {
        Share { of: Arc::clone(of), bytes: 0 }
    }

    /// Has so many bytes in all from now on: whether there were as many. Else it is as it was.
    #[must_use]
    pub fn grow_to(&mut self, bytes: usize) -> bool {
        self.grow(bytes, 0)
    }

    /// The same of what could wait: half of all bytes are left to others.
    #[must_use]
    pub fn grow_spare(&mut self, bytes: usize) -> bool {
        self.grow(bytes, self.of.most / 2)
    }

    /// The same, where it has more, and gives the others back, or less.
    #[must_use]
    pub fn set_spare(&mut self, bytes: usize) -> bool {
        if bytes >= self.bytes {
            return self.grow_spare(bytes);
        }
        self.of.left.fetch_add(self.bytes - bytes, Relaxed);
        self.bytes = bytes;
        true
    }

    fn grow(&mut self, bytes: usize, leaves: usize) -> bool {
        let more = bytes.saturating_sub(self.bytes);
        let grant = |left: usize| left.checked_sub(more).filter(|left| *left >= leaves);
        let is_granted = self.of.left.fetch_update(Relaxed, Relaxed, grant).is_ok();
        if is_granted {
            self.bytes += more;
        }
        is_granted
    }

    /// Gives all of it back.
    pub fn clear(&mut self) {
        if self.bytes > 0 {
            self.of.left.fetch_add(self.bytes, Relaxed);
            self.bytes = 0;
        }
    }
}

impl Drop for Share {
    fn drop(&mut self) {
        self.clear();
    }
}

#[cfg(test)]
mod tests {
    use super::*;

    #[test]
    fn there_is_memory_for_little_and_not_for_all() {
        assert!(has_memory(0) && has_memory(100_000) && !has_memory(1 << 60) && !has_memory(usize::MAX));
    }

    #[test]
    fn what_is_in_flight_is_no_more_than_may_be() {
        let all = InFlight::new(100);
        let (mut one, mut other) = (Share::none_of(&all), Share::none_of(&all));
        assert!(one.grow_to(60) && one.grow_to(50) && !other.grow_to(41) && other.grow_to(40));
        assert_eq!(all.left(), 0);
        drop(one);
        assert!(other.grow_to(100));
        other.clear();
        assert_eq!(all.left(), 100);
    }

    #[test]
    fn what_could_wait_leaves_half_to_others() {
        let all = InFlight::new(100);
        let (mut one, mut other) = (Share::none_of(&all), Share::none_of(&all));
        assert!(one.grow_spare(50) && !one.grow_spare(51) && !other.grow_spare(1) && other.grow_to(50));
        assert!(one.set_spare(20) && all.left() == 30 && !one.set_spare(21));
        other.clear();
        assert!(one.set_spare(50) && all.left() == 50);
        drop(one);
        assert_eq!(all.left(), 100);
    }
}
