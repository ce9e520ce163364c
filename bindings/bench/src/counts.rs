//! What the cache itself counts.
use kilambosetry::Stats;

/// Counts that only grow, each with its name: misses by cause, what was forgotten by cause, and the device's operations.
#[derive(Clone, Copy, Debug, Default, PartialEq, Eq)]
pub struct Counts {
    pub misses: [(&'static str, u64); 3],
    pub losses: [(&'static str, u64); 11],
    pub reads: u64,
    pub writes: u64,
    pub failures: u64,
    pub lies: u64,
    pub lock_waits: u64,
}

impl Counts {
    #[must_use]
    pub fn of(stats: &Stats) -> Counts {
        let (losses, device) = (&stats.losses, &stats.device);
        Counts {
            misses: [
                ("absent", stats.misses_absent),
                ("expired", stats.misses_expired),
                ("fault", stats.misses_by_fault),
            ],
            losses: [
                ("no_flash", losses.no_flash),
                ("tombstone", losses.tombstone),
                ("not_admitted", losses.not_admitted),
                ("too_large", losses.too_large),
                ("queue_full", losses.queue_full),
                ("expired", losses.expired),
                ("bucket_full", losses.bucket_full),
                ("reclaimed", losses.reclaimed),
                ("no_clean_region", losses.no_clean_region),
                ("collision", losses.collision),
                ("fault", losses.fault),
            ],
            reads: device.reads,
            writes: device.writes,
            failures: device.read_failures + device.write_failures,
            lies: device.lies,
            lock_waits: stats.lock_waits,
        }
    }

    /// What was counted since these.
    #[must_use]
    pub fn since(mut self, before: &Counts) -> Counts {
        let less = |now: &mut u64, before: u64| *now = now.saturating_sub(before);
        self.misses.iter_mut().zip(&before.misses).for_each(|(now, before)| less(&mut now.1, before.1));
        self.losses.iter_mut().zip(&before.losses).for_each(|(now, before)| less(&mut now.1, before.1));
        less(&mut self.reads, before.reads);
        less(&mut self.writes, before.writes);
        less(&mut self.failures, before.failures);
        less(&mut self.lies, before.lies);
        less(&mut self.lock_waits, before.lock_waits);
        self
    }
}
