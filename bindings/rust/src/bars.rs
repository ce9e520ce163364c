use crate::held::copied;
use crate::Refused;
use std::collections::{HashMap, VecDeque};
use std::time::Instant;

/// The bar on a key whose row is being changed, or may still come to be.
#[derive(Default)]
struct Bar {
    // the numbers of changes that aren't over
    changes: Vec<u64>,
    // until when changes that are over may still be committed, the next one first. As each of these moments is over the key is deleted,
    // also where another change stands still: who asks from then on isn't handed what was loaded before such a commit
    doubts: VecDeque<Instant>,
}

/// The bars of a shard. As long as one stands, nothing that was loaded is stored under its key.
#[derive(Default)]
pub(crate) struct Bars {
    standing: HashMap<Box<[u8]>, Bar>,
    // how many changes were begun
    begun: u64,
    // so many are looked through for those that are due
    many: usize,
}

// So many bars may stand before they are looked through.
const FEW: usize = 64;

impl Bars {
    /// A change of the key begins: its number.
    pub fn raise(&mut self, key: &[u8]) -> Result<u64, Refused> {
        let number = self.begun;
        if let Some(bar) = self.standing.get_mut(key) {
            bar.begin(number)?;
        } else {
            self.standing.try_reserve(1).map_err(|_| Refused::NO_MEMORY)?;
            let mut bar = Bar::default();
            bar.begin(number)?;
            self.standing.insert(copied(key)?.into_boxed_slice(), bar);
        }
        self.begun += 1;
        Ok(number)
    }

    /// Whether this change of the key isn't over.
    pub fn has(&self, key: &[u8], number: u64) -> bool {
        self.standing.get(key).is_some_and(|bar| bar.changes.contains(&number))
    }

    /// This change of the key is over, and its key was deleted. Where it isn't known whether it was committed, the bar stands until
    /// then, and ends with another delete. Refused where there is no memory for that; then the change isn't over.
    pub fn lower(&mut self, key: &[u8], number: u64, until: Option<Instant>) -> Result<(), Refused> {
        let Some(bar) = self.standing.get_mut(key) else { return Ok(()) };
        let now = Instant::now();
        bar.end_doubts(now, || true);
        until.map_or(Ok(()), |until| bar.doubt(now, until))?;
        bar.changes.retain(|change| *change != number);
        if bar.is_over() {
            self.standing.remove(key);
        }
        Ok(())
    }

    /// Whether a bar stands on the key. What is due of it is ended by `delete`, unless that is refused.
    pub fn stands(&mut self, key: &[u8], delete: impl FnOnce(&[u8]) -> bool) -> bool {
        if self.standing.is_empty() {
            return false;
        }
        let Some(bar) = self.standing.get_mut(key) else { return false };
        bar.end_doubts(Instant::now(), || delete(key));
        let is_over = bar.is_over();
        if is_over {
            self.standing.remove(key);
        }
        !is_over
    }

    /// The keys that have a bar.
    pub fn keys(&self) -> impl Iterator<Item = &[u8]> {
        self.standing.keys().map(|key| &**key)
    }

    /// Ends those that are due, each time that there are twice as many as were left the last time.
    pub fn end_due(&mut self, mut delete: impl FnMut(&[u8]) -> bool) {
        if self.standing.len() < self.many.max(FEW) {
            return;
        }
        let now = Instant::now();
        self.standing.retain(|key, bar| {
            bar.end_doubts(now, || delete(key));
            !bar.is_over()
        });
        self.many = 2 * self.standing.len();
    }
}

// A bar stands longer by a part of so many, so that doubts are few, however many changes fail.
const PART: u32 = 8;

impl Bar {
    fn is_over(&self) -> bool {
        self.changes.is_empty() && self.doubts.is_empty()
    }

    fn begin(&mut self, number: u64) -> Result<(), Refused> {
        self.changes.try_reserve(1).map_err(|_| Refused::NO_MEMORY)?;
        self.changes.push(number);
        Ok(())
    }

    // A change may still be committed until then.
    fn doubt(&mut self, now: Instant, until: Instant) -> Result<(), Refused> {
        let last = self.doubts.back().copied();
        if last.is_some_and(|last| last >= until) {
            return Ok(());
        }
        self.doubts.try_reserve(1).map_err(|_| Refused::NO_MEMORY)?;
        let apart = until.saturating_duration_since(now) / PART;
        self.doubts.push_back(last.map_or(until, |last| until.max(last + apart)));
        Ok(())
    }

    // Ends the doubts that are over, where the key can be deleted.
    fn end_doubts(&mut self, now: Instant, delete: impl FnOnce() -> bool) {
        let over = self.doubts.partition_point(|until| *until <= now);
        if over > 0 && delete() {
            self.doubts.drain(..over);
        }
    }
}
