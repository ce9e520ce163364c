//! Rows of a database, which all threads load and change: the versions that are committed rise.
use crate::client::Client;
use crate::model::{is_absent, Key};
use crate::tasks::block_on;
use kilambosetry::{Change, Error, Lease, LoadError, Loaded, Lookup};
use std::panic::{self, AssertUnwindSafe};
use std::thread;
use std::time::{Duration, Instant};

/// How long a commit may take effect after its change was told an error.
pub const UNKNOWN_FOR: Duration = Duration::from_millis(60);
/// How long a load is waited for.
pub const PATIENCE: Duration = Duration::from_millis(30);

/// A change whose commit is still to take effect, or did so behind its error.
pub struct Late<'a> {
    row: &'a Key,
    commits_at: Instant,
    // a commit before this is one that the bar waits for, which is over then
    in_time: Instant,
    is_over_at: Instant,
    version: Option<u64>,
}

/// A row that was loaded, and is to be stored.
pub struct Begun<'a> {
    row: &'a Key,
    loaded: Loaded,
    lease: Lease,
}

type Failed = &'static str;

impl<'a> Client<'a> {
    /// The row as the database has it at some moment of the call; or the load fails, or panics.
    fn load(&mut self, row: &Key) -> Result<Loaded, Failed> {
        let version = row.newest();
        match self.draws.below(600) {
            0 => thread::sleep(PATIENCE * 2),
            1..=20 => thread::sleep(Duration::from_micros(self.draws.below(3000))),
            21..=30 => return Err("the load fails"),
            31 | 32 => panic::resume_unwind(Box::new("the load panics")),
            _ => {}
        }
        if is_absent(version) {
            return Ok(Loaded::absent(self.ttl()));
        }
        // (some are longer than can be stored)
        let length = if self.draws.one_of(2000) { 1_100_000 } else { self.length() };
        Ok(Loaded::row(row.value(version, length), self.ttl()))
    }

    /// Reads a row in one of many ways.
    pub fn read_row(&mut self, row: &'a Key) {
        let oldest = row.oldest();
        match self.draws.below(8) {
            0..=2 => self.find_or_load(row, oldest),
            3 => self.get_or_load(row, oldest),
            4 => {
                let looked = self.cache.get_or_lease(&row.name);
                self.begin_load(row, oldest, looked);
            }
            5 => {
                let looked = self.cache.get_or_lease_timeout(&row.name, self.limit());
                self.begin_load(row, oldest, looked);
            }
            6 => {
                let limit = 10 * self.limit();
                if let Some(looked) = block_on(self.cache.get_or_lease_async(&row.name), limit) {
                    self.begin_load(row, oldest, looked);
                }
            }
            _ => self.read_plain(row),
        }
    }

    fn find_or_load(&mut self, row: &Key, oldest: u64) {
        let cache = self.cache;
        let found = panic::catch_unwind(AssertUnwindSafe(|| cache.find_or_load(&row.name, || self.load(row))));
        match found {
            Ok(Ok(Some(value))) => {
                self.counts.rows += 1;
                row.judge(oldest, &value);
            }
            Ok(Ok(None)) => row.judge_absent(oldest),
            Ok(Err(LoadError::Load(_) | LoadError::Elsewhere(_))) => self.counts.failed += 1,
            Ok(Err(error)) => panic!("{row}: {error:?}"),
            Err(_) => self.counts.failed += 1,
        }
    }

    // (it has no word for a row that isn't there, which is an error of the load's)
    fn get_or_load(&mut self, row: &Key, oldest: u64) {
        let cache = self.cache;
        let load = || self.load(row)?.row.ok_or("no such row");
        match panic::catch_unwind(AssertUnwindSafe(|| cache.get_or_load(&row.name, 0, load))) {
            Ok(Ok(value)) => {
                self.counts.rows += 1;
                row.judge(oldest, &value);
            }
            _ => self.counts.failed += 1,
        }
    }

    // Loads the row by a lease, and stores it now or later.
    fn begin_load(&mut self, row: &'a Key, oldest: u64, looked: Result<Lookup, Error>) {
        match looked {
            Ok(Lookup::Hit(value)) => {
                self.counts.rows += 1;
                row.judge(oldest, &value);
            }
            Ok(Lookup::Absent) => row.judge_absent(oldest),
            Ok(Lookup::Failed(_)) | Err(Error::TimedOut) => self.counts.failed += 1,
            Ok(Lookup::Miss(lease)) => {
                // (a lease whose load panics is dropped)
                match panic::catch_unwind(AssertUnwindSafe(|| self.load(row))) {
                    Ok(Ok(loaded)) => self.begun.push(Begun { row, loaded, lease }),
                    Ok(Err(failed)) => lease.fail(failed),
                    Err(_) => drop(lease),
                }
            }
            other => panic!("{row}: {other:?}"),
        }
        if self.begun.len() > 4 || self.draws.one_of(2) {
            self.store_row();
        }
    }

    fn store_row(&mut self) {
        if self.begun.is_empty() {
            return;
        }
        let at = self.draws.below(self.begun.len() as u64) as usize;
        let Begun { row, loaded, lease } = self.begun.swap_remove(at);
        assert_eq!(lease.key(), row.name);
        match &loaded.row {
            // (what is too long is refused, and handed on)
            Some(value) => assert!(lease.store(value, loaded.ttl).is_ok() || value.len() > 1 << 20),
            None => drop(lease.store_absent(loaded.ttl).unwrap()),
        }
    }

    /// Changes a row in one of many ways.
    pub fn change_row(&mut self, row: &'a Key) {
        let cache = self.cache;
        let committed = match self.draws.below(10) {
            0..=2 => cache.change(&row.name, || Ok::<_, Failed>(row.begin())).unwrap(),
            3 | 4 => self.commit_unanswered(row),
            5 => self.commit_and_panic(row),
            6 => return self.commit_late(row),
            7 => return self.begin_change(row),
            8 => return self.end_change(),
            _ => {
                cache.delete(&row.name).unwrap();
                return;
            }
        };
        row.answered(committed);
    }

    // It is committed, and its answer is lost.
    fn commit_unanswered(&mut self, row: &Key) -> u64 {
        let mut committed = 0;
        let lost = self.cache.change(&row.name, || {
            committed = row.begin();
            Err::<(), Failed>("the answer is lost")
        });
        assert!(lost.is_err());
        committed
    }

    fn commit_and_panic(&mut self, row: &Key) -> u64 {
        let mut committed = 0;
        let commit = || -> Result<(), Failed> {
            committed = row.begin();
            panic::resume_unwind(Box::new("the commit panics"))
        };
        assert!(panic::catch_unwind(AssertUnwindSafe(|| self.cache.change(&row.name, commit))).is_err());
        committed
    }

    // It is told an error, and committed later.
    fn commit_late(&mut self, row: &'a Key) {
        let mut ended = Instant::now();
        let lost = self.cache.change(&row.name, || {
            ended = Instant::now();
            Err::<(), Failed>("the answer is lost")
        });
        assert!(lost.is_err());
        let commits_at = ended + UNKNOWN_FOR.mul_f64(self.draws.below(100) as f64 / 100.0);
        let (in_time, is_over_at) = (ended + UNKNOWN_FOR, Instant::now() + UNKNOWN_FOR);
        self.late.push(Late { row, commits_at, in_time, is_over_at, version: None });
    }

    /// Commits what is due, and counts as answered what is over.
    pub fn commit_due(&mut self) {
        let now = Instant::now();
        for late in self.late.iter_mut().filter(|late| late.version.is_none() && late.commits_at <= now) {
            let version = late.row.begin();
            // (where this thread slept over it, the commit was later than the cache was told, and nothing is known of it)
            late.version = Some(if Instant::now() < late.in_time { version } else { 0 });
        }
        let is_over = |late: &mut Late| late.version.is_some() && late.is_over_at < now;
        for late in self.late.extract_if(.., is_over) {
            self.counts.late += u64::from(late.version > Some(0));
            late.row.answered(late.version.unwrap_or(0));
        }
    }

    // A change that is ended or dropped later, or whose task is dropped.
    fn begin_change(&mut self, row: &'a Key) {
        self.changes.push((row, self.cache.begin_change(&row.name)));
        if self.changes.len() > 3 {
            self.end_change();
        }
    }

    fn end_change(&mut self) {
        if self.changes.is_empty() {
            return;
        }
        let at = self.draws.below(self.changes.len() as u64) as usize;
        let (row, change): (&Key, Change) = self.changes.swap_remove(at);
        let committed = row.begin();
        match self.draws.below(2) {
            0 => change.end(),
            _ => drop(change),
        }
        row.answered(committed);
    }
}
