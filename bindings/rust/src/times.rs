use crate::shared::Shared;
use crate::{Histogram, HybridCache, Refused};
use std::cell::Cell;
use std::fmt;
use std::sync::atomic::{AtomicU64, Ordering::Relaxed};
use std::time::Instant;

/// How long gets, loads and operations of the device took: [`HybridCache::times`].
#[derive(Clone, Debug, Default)]
#[non_exhaustive]
pub struct Times {
    /// Gets that were answered at once, from memory or that there is none: of one in sixteen, drawn by chance, so that it costs nearly
    /// nothing. Those of `get` and `read`, with a limit or without, of `get_into`, and of who loads or has a lease; not those of futures,
    /// nor of many keys at once.
    pub gets: Histogram,
    /// Gets that waited for flash, each from then on until its answer was there.
    pub waiting_gets: Histogram,
    /// Loads, from the lease until it was spent or dropped, with the store. (Those of C aren't timed, nor who waits for another's.)
    pub loads: Histogram,
    /// Pages that were read, or tried.
    pub device_reads: Histogram,
    /// Pages that were written, or tried.
    pub device_writes: Histogram,
}

const KINDS: usize = 5;

impl Times {
    // The histograms, each with its name and what it is.
    fn named(&self) -> [(&'static str, &'static str, &Histogram); KINDS] {
        [
            ("get", "Gets answered at once, of one in sixteen.", &self.gets),
            ("waiting_get", "Gets that waited for flash.", &self.waiting_gets),
            ("load", "Loads, with the store.", &self.loads),
            ("device_read", "Pages read.", &self.device_reads),
            ("device_write", "Pages written.", &self.device_writes),
        ]
    }

    /// The text that Prometheus reads, beside that of [`Stats`](crate::Stats): `kilambosetry_get_seconds` and so on.
    ///
    /// ```
    /// use kilambosetry::Times;
    ///
    /// let text = Times::default().to_prometheus();
    /// assert!(text.contains("# TYPE kilambosetry_load_seconds histogram\n") && text.contains("kilambosetry_load_seconds_count 0\n"));
    /// ```
    #[must_use]
    pub fn to_prometheus(&self) -> String {
        Times::all_to_prometheus(&[("", self)])
    }

    /// The same of several caches of a process, each with a name of its own, which the label `cache` tells.
    #[must_use]
    pub fn all_to_prometheus(caches: &[(&str, &Times)]) -> String {
        let mut text = String::new();
        for (kind, (name, help, _)) in Times::default().named().into_iter().enumerate() {
            let name = format!("kilambosetry_{name}_seconds");
            text += &format!("# HELP {name} {help}\n# TYPE {name} histogram\n");
            for (cache, times) in caches {
                let cache = cache.replace('\\', "\\\\").replace('"', "\\\"").replace('\n', "\\n");
                let label = if cache.is_empty() { String::new() } else { format!("cache=\"{cache}\"") };
                text += &times.named()[kind].2.to_prometheus(&name, &label);
            }
        }
        text
    }
}

impl fmt::Display for Times {
    fn fmt(&self, f: &mut fmt::Formatter<'_>) -> fmt::Result {
        write!(
            f,
            "{:<12} {:>10} {:>11} {:>11} {:>11} {:>11}",
            "microseconds", "count", "p50", "p99", "p99.9", "longest"
        )?;
        self.named().into_iter().try_for_each(|(name, _, times)| {
            let micros = |time: u64| time as f64 / 1000.0;
            let [half, most, nearly_all] = [0.5, 0.99, 0.999].map(|share| micros(times.quantile(share)));
            let (count, longest) = (times.count(), micros(times.most()));
            write!(f, "\n{name:<12} {count:>10} {half:>11.1} {most:>11.1} {nearly_all:>11.1} {longest:>11.1}")
        })
    }
}

impl HybridCache {
    /// How long gets, loads and operations of the device took so far; none, where [`Options::times`](crate::Options::times) isn't set.
    ///
    /// ```
    /// use kilambosetry::{HybridCache, Options};
    /// use std::io;
    ///
    /// let cache = HybridCache::in_memory(&Options { times: true, ..Options::default() })?;
    /// cache.get_or_load(b"user:7", 3600, || Ok::<_, io::Error>("Ada"))?;
    /// let times = cache.times().unwrap();
    /// assert_eq!(times.loads.count(), 1);
    /// println!("{times}");
    /// # Ok::<(), Box<dyn std::error::Error>>(())
    /// ```
    #[must_use]
    pub fn times(&self) -> Option<Times> {
        let clocked = self.shards().clocked.as_ref()?;
        let of = |kind: Kind| Histogram::of_counts(clocked.row(kind).iter().map(|count| count.load(Relaxed)));
        Some(Times {
            gets: of(Kind::Get),
            waiting_gets: of(Kind::WaitingGet),
            loads: of(Kind::Load),
            device_reads: of(Kind::Read),
            device_writes: of(Kind::Write),
        })
    }
}

/// What is timed.
#[derive(Clone, Copy)]
pub(crate) enum Kind {
    Get,
    WaitingGet,
    Load,
    Read,
    Write,
}

/// The times of a cache, which its threads add. A clone is another handle to them.
#[derive(Clone)]
pub(crate) struct Clocked(Shared<Vec<AtomicU64>>);

impl Clocked {
    pub fn new() -> Result<Clocked, Refused> {
        let mut counts = Vec::new();
        counts.try_reserve_exact(KINDS * Histogram::PLACES).map_err(|_| Refused::NO_MEMORY)?;
        counts.resize_with(KINDS * Histogram::PLACES, AtomicU64::default);
        Shared::new(counts).map(Clocked)
    }

    fn row(&self, kind: Kind) -> &[AtomicU64] {
        &self.0[kind as usize * Histogram::PLACES..][..Histogram::PLACES]
    }

    /// Counts one that began then, and is over.
    pub fn end(&self, kind: Kind, begun: Instant) {
        let nanoseconds = u64::try_from(begun.elapsed().as_nanos()).unwrap_or(u64::MAX);
        self.row(kind)[Histogram::place(nanoseconds)].fetch_add(1, Relaxed);
    }
}

/// When this get begins, if it is one that is timed: one in sixteen or so, so that no row of gets has the same ones timed always.
#[inline]
pub(crate) fn begin_some() -> Option<Instant> {
    thread_local! {
        // so many are passed over until one is timed; and what the next number is drawn of
        static LEFT: Cell<u32> = const { Cell::new(0) };
        static SEED: Cell<u64> = const { Cell::new(1) };
    }
    let left = LEFT.get();
    if left > 0 {
        LEFT.set(left - 1);
        return None;
    }
    let seed = SEED.get();
    SEED.set(seed.wrapping_mul(6_364_136_223_846_793_005).wrapping_add(1_442_695_040_888_963_407));
    LEFT.set((seed >> 59) as u32);
    Some(Instant::now())
}

/// A load that is timed, until this is dropped.
pub(crate) struct TimedLoad {
    begun: Instant,
    clocked: Option<Clocked>,
}

impl TimedLoad {
    pub fn begin(clocked: &Clocked) -> TimedLoad {
        TimedLoad { begun: Instant::now(), clocked: Some(clocked.clone()) }
    }

    /// It is timed no more.
    pub fn leave(mut self) {
        self.clocked = None;
    }
}

impl Drop for TimedLoad {
    fn drop(&mut self) {
        if let Some(clocked) = &self.clocked {
            clocked.end(Kind::Load, self.begun);
        }
    }
}
