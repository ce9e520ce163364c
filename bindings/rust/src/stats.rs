use crate::{DeviceCounts, Losses};
use std::fmt::{self, Write};
use std::iter::Sum;
use std::ops::AddAssign;

/// What a [`HybridCache`](crate::HybridCache) did so far, and what it has, of all shards together. Each shard is asked by
/// itself, so that no two numbers need be of one moment.
#[derive(Clone, Copy, Debug, Default, PartialEq, Eq)]
#[non_exhaustive]
pub struct Stats {
    /// Gets that found a value in memory, items that wait for flash too.
    pub hits_from_memory: u64,
    /// Gets that waited for flash, and found a value.
    pub hits_from_flash: u64,
    /// Gets that found none, and no reason: the key was never stored, or it was deleted or forgotten, or flash had it, expired. A
    /// cache whose memory is bounded can't tell a key that it forgot from one that never was.
    pub misses_absent: u64,
    /// Gets that found none, since the item that memory has is expired.
    pub misses_expired: u64,
    /// Gets that found none, since a page that may have had the value couldn't be read, or came back otherwise than written.
    pub misses_by_fault: u64,
    /// Values that were stored.
    pub stored: u64,
    /// Deletes, whether or not there was an item.
    pub deletes: u64,
    /// Leases that were handed out: values that were to be loaded.
    pub loads: u64,
    /// Calls that missed a key, and waited for another that loads it.
    pub waits_for_loads: u64,
    /// Loaded values that weren't stored, since their key was changed meanwhile, or another of its slot.
    pub stale_stores: u64,
    /// Loaded values that weren't stored, since the store was refused.
    pub refused_stores: u64,
    /// How often all was forgotten at once ([`clear`](crate::HybridCache::clear)).
    pub clears: u64,
    /// Items in memory that were forgotten so, beside those of `losses`. How many flash had isn't known.
    pub cleared_items: u64,
    /// Items that were forgotten, by the reason.
    pub losses: Losses,
    /// Items in memory.
    pub memory_items: u64,
    /// Bytes that they are charged: 32, and those of key and value. What they take is more.
    pub memory_bytes: u64,
    /// The most bytes that they may be charged.
    pub memory_limit_bytes: u64,
    /// Bytes of the pages of flash that were written.
    pub flash_bytes: u64,
    /// Bytes of flash.
    pub flash_limit_bytes: u64,
    /// Operations of the device.
    pub device: DeviceCounts,
    /// Values that wait to be written to flash. One that is being written waits no more.
    pub queue_length: u64,
    /// Shards for whose flash something waits to be written: a value, a delete or a region's page.
    pub shards_behind: u64,
    /// Calls that wait for flash now.
    pub waiting: u64,
    /// Calls that were given up while they waited.
    pub given_up: u64,
    /// How often a shard's lock was waited for.
    pub lock_waits: u64,
}

impl Stats {
    /// Gets that found a value.
    #[must_use]
    pub fn hits(&self) -> u64 {
        self.hits_from_memory + self.hits_from_flash
    }

    /// Gets that found none.
    #[must_use]
    pub fn misses(&self) -> u64 {
        self.misses_absent + self.misses_expired + self.misses_by_fault
    }

    /// Gets that were answered: each has found a value, or none. (One that waits, or was given up, isn't answered.)
    #[must_use]
    pub fn gets(&self) -> u64 {
        self.hits() + self.misses()
    }

    // The losses, each with its reason.
    fn losses_by_reason(&self) -> [(&'static str, u64); 11] {
        let it = &self.losses;
        [
            ("no_flash", it.no_flash),
            ("tombstone", it.tombstone),
            ("not_admitted", it.not_admitted),
            ("too_large", it.too_large),
            ("queue_full", it.queue_full),
            ("expired", it.expired),
            ("bucket_full", it.bucket_full),
            ("reclaimed", it.reclaimed),
            ("no_clean_region", it.no_clean_region),
            ("collision", it.collision),
            ("fault", it.fault),
        ]
    }

    /// The text that Prometheus reads.
    ///
    /// ```
    /// use kilambosetry::Stats;
    ///
    /// let mut stats = Stats::default();
    /// stats.stored = 3;
    /// let text = stats.to_prometheus();
    /// assert!(text.contains("# TYPE kilambosetry_stored_total counter\nkilambosetry_stored_total 3\n"));
    /// ```
    #[must_use]
    pub fn to_prometheus(&self) -> String {
        text_of(&[("", self)])
    }

    /// The same of several caches of a process, each with a name of its own, which the label `cache` tells. (The texts of two
    /// caches, one behind the other, have each name twice, which Prometheus refuses.)
    ///
    /// ```
    /// use kilambosetry::Stats;
    ///
    /// let (mut users, orders) = (Stats::default(), Stats::default());
    /// users.stored = 3;
    /// let text = Stats::all_to_prometheus(&[("users", &users), ("orders", &orders)]);
    /// assert!(text.contains("\nkilambosetry_stored_total{cache=\"users\"} 3\nkilambosetry_stored_total{cache=\"orders\"} 0\n"));
    /// ```
    #[must_use]
    pub fn all_to_prometheus(caches: &[(&str, &Stats)]) -> String {
        text_of(caches)
    }
}

// The text of these caches, by their names. One without a name is the only one.
fn text_of(caches: &[(&str, &Stats)]) -> String {
    let mut to = Text { caches, text: String::new() };
    let it = &mut to;
    it.counters("hits", "Gets that found a value.", "from", |it| {
        [("memory", it.hits_from_memory), ("flash", it.hits_from_flash)]
    });
    it.counters("misses", "Gets that found none.", "reason", |it| {
        [("absent", it.misses_absent), ("expired", it.misses_expired), ("fault", it.misses_by_fault)]
    });
    it.counter("stored", "Values that were stored.", |it| it.stored);
    it.counter("deletes", "Deletes.", |it| it.deletes);
    it.counter("loads", "Values that were to be loaded.", |it| it.loads);
    it.counter("waits_for_loads", "Calls that waited for another's load.", |it| it.waits_for_loads);
    it.counter("stale_stores", "Loads not stored: the key was changed.", |it| it.stale_stores);
    it.counter("refused_stores", "Loads not stored: the store was refused.", |it| it.refused_stores);
    it.counter("clears", "Times that all was forgotten.", |it| it.clears);
    it.counter("cleared_items", "Items in memory that were forgotten so.", |it| it.cleared_items);
    it.counters("losses", "Items that were forgotten.", "reason", Stats::losses_by_reason);
    it.counters("device_operations", "Pages read and written.", "operation", |it| {
        [("read", it.device.reads), ("write", it.device.writes)]
    });
    it.counters("device_failures", "Operations that failed.", "operation", |it| {
        [("read", it.device.read_failures), ("write", it.device.write_failures)]
    });
    it.counter("device_lies", "Pages that came back otherwise than written.", |it| it.device.lies);
    it.counter("given_up", "Calls given up while they waited.", |it| it.given_up);
    it.counter("lock_waits", "Times that a lock was waited for.", |it| it.lock_waits);
    it.gauge("memory_items", "Items in memory.", |it| it.memory_items);
    it.gauge("memory_bytes", "Bytes charged to items in memory.", |it| it.memory_bytes);
    it.gauge("memory_limit_bytes", "The most bytes charged.", |it| it.memory_limit_bytes);
    it.gauge("flash_bytes", "Bytes of written pages.", |it| it.flash_bytes);
    it.gauge("flash_limit_bytes", "Bytes of flash.", |it| it.flash_limit_bytes);
    it.gauge("queue_length", "Values that wait to be written to flash.", |it| it.queue_length);
    it.gauge("shards_behind", "Shards with something to be written.", |it| it.shards_behind);
    it.gauge("waiting_calls", "Calls that wait for flash.", |it| it.waiting);
    to.text
}

// A text for Prometheus that is being written.
struct Text<'a> {
    caches: &'a [(&'a str, &'a Stats)],
    text: String,
}

impl Text<'_> {
    fn head(&mut self, name: &str, kind: &str, help: &str) {
        let _ = write!(self.text, "# HELP kilambosetry_{name} {help}\n# TYPE kilambosetry_{name} {kind}\n");
    }

    // A sample of a cache, with a label of its own (none, where that has no name).
    fn sample(&mut self, name: &str, cache: &str, (label, of): (&str, &str), value: u64) {
        let _ = write!(self.text, "kilambosetry_{name}");
        let labels = [("cache", cache), (label, of)];
        let mut open = '{';
        for (label, value) in labels.iter().filter(|(label, value)| !label.is_empty() && !value.is_empty()) {
            let value = value.replace('\\', "\\\\").replace('"', "\\\"").replace('\n', "\\n");
            let _ = write!(self.text, "{open}{label}=\"{value}\"");
            open = ',';
        }
        let close = if open == ',' { "}" } else { "" };
        let _ = writeln!(self.text, "{close} {value}");
    }

    fn counters<const N: usize>(
        &mut self,
        name: &str,
        help: &str,
        label: &str,
        counts: impl Fn(&Stats) -> [(&'static str, u64); N],
    ) {
        let name = format!("{name}_total");
        self.head(&name, "counter", help);
        for (cache, stats) in self.caches {
            counts(stats).into_iter().for_each(|(of, count)| self.sample(&name, cache, (label, of), count));
        }
    }

    fn counter(&mut self, name: &str, help: &str, count: impl Fn(&Stats) -> u64) {
        self.counters(name, help, "", |stats| [("", count(stats))]);
    }

    fn gauge(&mut self, name: &str, help: &str, value: impl Fn(&Stats) -> u64) {
        self.head(name, "gauge", help);
        for (cache, stats) in self.caches {
            self.sample(name, cache, ("", ""), value(stats));
        }
    }
}

/// Adds what another cache did, and has.
impl AddAssign for Stats {
    fn add_assign(&mut self, other: Stats) {
        self.hits_from_memory += other.hits_from_memory;
        self.hits_from_flash += other.hits_from_flash;
        self.misses_absent += other.misses_absent;
        self.misses_expired += other.misses_expired;
        self.misses_by_fault += other.misses_by_fault;
        self.stored += other.stored;
        self.deletes += other.deletes;
        self.loads += other.loads;
        self.waits_for_loads += other.waits_for_loads;
        self.stale_stores += other.stale_stores;
        self.refused_stores += other.refused_stores;
        self.clears += other.clears;
        self.cleared_items += other.cleared_items;
        self.losses += other.losses;
        self.memory_items += other.memory_items;
        self.memory_bytes += other.memory_bytes;
        self.memory_limit_bytes += other.memory_limit_bytes;
        self.flash_bytes += other.flash_bytes;
        self.flash_limit_bytes += other.flash_limit_bytes;
        self.device += other.device;
        self.queue_length += other.queue_length;
        self.shards_behind += other.shards_behind;
        self.waiting += other.waiting;
        self.given_up += other.given_up;
        self.lock_waits += other.lock_waits;
    }
}

impl Sum for Stats {
    fn sum<I: Iterator<Item = Stats>>(all: I) -> Stats {
        all.fold(Stats::default(), |mut sum, stats| {
            sum += stats;
            sum
        })
    }
}

impl fmt::Display for Stats {
    fn fmt(&self, f: &mut fmt::Formatter<'_>) -> fmt::Result {
        let device = &self.device;
        writeln!(
            f,
            "gets     {} from memory, {} from flash, {} missed ({} expired, {} by a fault)",
            self.hits_from_memory,
            self.hits_from_flash,
            self.misses(),
            self.misses_expired,
            self.misses_by_fault
        )?;
        writeln!(
            f,
            "changes  {} stored, {} deletes, {} clears of {} items in memory",
            self.stored, self.deletes, self.clears, self.cleared_items
        )?;
        writeln!(
            f,
            "loads    {} begun, {} stale, {} refused, {} waited for another's",
            self.loads, self.stale_stores, self.refused_stores, self.waits_for_loads
        )?;
        writeln!(
            f,
            "memory   {} items, {} of {} bytes",
            self.memory_items, self.memory_bytes, self.memory_limit_bytes
        )?;
        writeln!(
            f,
            "flash    {} of {} bytes, {} values wait to be written, {} shards behind",
            self.flash_bytes, self.flash_limit_bytes, self.queue_length, self.shards_behind
        )?;
        writeln!(
            f,
            "device   {} reads ({} failed, {} lies), {} writes ({} failed)",
            device.reads, device.read_failures, device.lies, device.writes, device.write_failures
        )?;
        writeln!(
            f,
            "waits    {} calls wait, {} given up, {} waits for a lock",
            self.waiting, self.given_up, self.lock_waits
        )?;
        f.write_str("losses  ")?;
        let mut losses = self.losses_by_reason().into_iter().filter(|(_, count)| *count > 0).peekable();
        if losses.peek().is_none() {
            return f.write_str(" none");
        }
        losses.try_for_each(|(reason, count)| write!(f, " {reason} {count}"))
    }
}
