//! A thread's day.
use crate::draws::Draws;
use crate::model::Key;
use crate::rows::{Begun, Late};
use kilambosetry::{Change, HybridCache, Lease};
use std::ops::AddAssign;
use std::time::{Duration, Instant};

/// What a thread did.
#[derive(Clone, Copy, Default)]
pub struct Counts {
    pub calls: u64,
    /// Values that were found by a get.
    pub hits: u64,
    /// Rows that were found, loaded or handed on.
    pub rows: u64,
    /// Loads that failed, here or elsewhere, or weren't waited for.
    pub failed: u64,
    /// Commits that took effect behind their errors, and in time.
    pub late: u64,
}

impl AddAssign for Counts {
    fn add_assign(&mut self, other: Counts) {
        self.calls += other.calls;
        self.hits += other.hits;
        self.rows += other.rows;
        self.failed += other.failed;
        self.late += other.late;
    }
}

/// A thread, of so many.
pub struct Client<'a> {
    pub cache: &'a HybridCache,
    pub draws: Draws,
    pub leases: Vec<(&'a Key, Lease)>,
    pub begun: Vec<Begun<'a>>,
    pub changes: Vec<(&'a Key, Change)>,
    pub late: Vec<Late<'a>>,
    pub counts: Counts,
}

impl<'a> Client<'a> {
    pub fn new(cache: &'a HybridCache, seed: u64) -> Client<'a> {
        Client {
            cache,
            draws: Draws::new(seed),
            leases: Vec::new(),
            begun: Vec::new(),
            changes: Vec::new(),
            late: Vec::new(),
            counts: Counts::default(),
        }
    }

    /// Makes calls until then: `number` of `threads`, on these keys and these rows.
    pub fn live(
        mut self,
        (number, threads): (usize, usize),
        keys: &'a [Key],
        rows: &'a [Key],
        until: Instant,
    ) -> Counts {
        while Instant::now() < until {
            self.counts.calls += 1;
            self.commit_due();
            if self.draws.one_of(50_000) {
                self.clear(keys);
            }
            let (key, row) = (self.one_of(keys, 200), self.one_of(rows, 100));
            let own = key / threads * threads + number;
            match self.draws.below(12) {
                0..=4 => self.read_plain(&keys[key]),
                5 | 6 if own < keys.len() => self.change_plain(&keys[own]),
                7..=10 => self.read_row(&rows[row]),
                _ => self.change_row(&rows[row]),
            }
        }
        self.counts
    }

    // One of these by chance, every other time of the first few.
    fn one_of(&mut self, keys: &[Key], few: usize) -> usize {
        let all = if self.draws.one_of(2) { few.min(keys.len()) } else { keys.len() };
        self.draws.below(all as u64) as usize
    }

    /// The bytes of a value behind its head.
    pub fn length(&mut self) -> u64 {
        match self.draws.below(40) {
            0 => self.draws.below(200_000),
            1 => 0,
            _ => self.draws.below(6000),
        }
    }

    pub fn ttl(&mut self) -> u32 {
        u32::from(self.draws.one_of(10))
    }

    /// How long a call waits at most.
    pub fn limit(&mut self) -> Duration {
        Duration::from_micros(self.draws.below(3000))
    }
}
