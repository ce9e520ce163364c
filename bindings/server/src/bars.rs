//! Keys whose rows clients are changing: nothing that was loaded is stored under them meanwhile.
use std::collections::{HashMap, TryReserveError};
use std::sync::{Mutex, MutexGuard, PoisonError};
use tokio::task::JoinHandle;

/// The most bars that may stand.
const MOST: usize = 65_536;
/// The most seconds that a bar may be set for.
pub const LONGEST: u32 = 86_400;

/// The bars that stand. A key has one for each change of its row that is under way. They are set and ended under the key's lock.
#[derive(Debug, Default)]
pub struct Bars(Mutex<Standing>);

#[derive(Debug, Default)]
struct Standing {
    of: HashMap<Box<[u8]>, Vec<Bar>>,
    count: usize,
}

#[derive(Debug)]
struct Bar {
    number: u64,
    // ends it where nobody else does
    limit: JoinHandle<()>,
}

impl Standing {
    // Makes room for one more bar of the key.
    fn reserve(&mut self, key: &[u8]) -> Result<(), TryReserveError> {
        match self.of.get_mut(key) {
            Some(bars) => bars.try_reserve(1),
            None => self.of.try_reserve(1),
        }
    }
}

impl Bars {
    fn standing(&self) -> MutexGuard<'_, Standing> {
        self.0.lock().unwrap_or_else(PoisonError::into_inner)
    }

    /// Sets a bar of this number: whether there was room for it.
    pub fn raise(&self, key: &[u8], number: u64, limit: JoinHandle<()>) -> bool {
        let mut standing = self.standing();
        if standing.count == MOST || standing.reserve(key).is_err() {
            limit.abort();
            return false;
        }
        standing.count += 1;
        standing.of.entry(key.into()).or_default().push(Bar { number, limit });
        true
    }

    /// Ends the key's bar of this number, if it stands.
    pub fn lower(&self, key: &[u8], number: u64) {
        let mut standing = self.standing();
        let Some(bars) = standing.of.get_mut(key) else { return };
        let Some(at) = bars.iter().position(|bar| bar.number == number) else { return };
        bars.swap_remove(at).limit.abort();
        if bars.is_empty() {
            standing.of.remove(key);
        }
        standing.count -= 1;
    }

    /// Whether the key has a bar.
    pub fn stands(&self, key: &[u8]) -> bool {
        self.standing().of.contains_key(key)
    }

    /// Tells each key that has one.
    pub fn each(&self, tell: impl FnMut(&[u8])) {
        self.standing().of.keys().map(|key| &**key).for_each(tell);
    }

    /// How many stand.
    pub fn count(&self) -> usize {
        self.standing().count
    }
}

#[cfg(test)]
mod tests {
    use super::*;
    use tokio::runtime::Builder;

    #[test]
    fn so_many_bars_stand_at_once_and_no_more() {
        let runtime = Builder::new_current_thread().build().unwrap();
        let limit = || runtime.spawn(async {});
        let bars = Bars::default();
        for number in 0..MOST as u64 {
            assert!(bars.raise(&(number % 1000).to_be_bytes(), number, limit()));
        }
        assert!(!bars.raise(b"key", 0, limit()) && !bars.stands(b"key"));
        bars.lower(b"key", 0); // there is none
        bars.lower(&7_u64.to_be_bytes(), 7);
        assert!(bars.stands(&7_u64.to_be_bytes()), "the others of the key stand");
        assert!(bars.raise(b"key", 0, limit()) && bars.stands(b"key"));
        bars.lower(b"key", 0);
        assert!(!bars.stands(b"key"));
        assert_eq!(bars.count(), MOST - 1);
    }
}
