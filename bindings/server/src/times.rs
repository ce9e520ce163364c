//! How long commands take: of one in sixteen or so, drawn by chance, so that it costs nearly nothing.
use crate::counters::Counter;
use crate::flags::Verb;
use crate::request::Command;
use kilambosetry::Histogram;
use std::sync::atomic::{AtomicU32, AtomicU64, Ordering::Relaxed};
use std::time::{Duration, Instant};

/// What a command is, as far as its time goes.
#[derive(Clone, Copy, Debug, PartialEq, Eq)]
pub enum Kind {
    Get,
    /// One that had to wait: for flash, or where it is one of many keys for its client or its turn.
    WaitingGet,
    Store,
    Other,
}

/// The kinds, each with its name.
pub const KINDS: [(Kind, &str); 4] = [
    (Kind::Get, "gets answered at once"),
    (Kind::WaitingGet, "gets that waited"),
    (Kind::Store, "stores"),
    (Kind::Other, "other commands"),
];

// So many places each kind has.
const PLACES: usize = Histogram::PLACES;

/// Times of all kinds.
pub type Histograms = [Histogram; KINDS.len()];

impl Kind {
    #[must_use]
    pub fn of(command: &Command<'_>) -> Kind {
        match command {
            Command::Get { .. } | Command::GetAndTouch { .. } => Kind::Get,
            Command::Store(_) => Kind::Store,
            Command::Meta(meta) => match meta.verb {
                Verb::Get => Kind::Get,
                Verb::Set { .. } => Kind::Store,
                _ => Kind::Other,
            },
            _ => Kind::Other,
        }
    }

    /// The kind of one of which is known whether it had to wait.
    #[must_use]
    pub fn where_it(self, has_waited: bool) -> Kind {
        match self {
            Kind::Get if has_waited => Kind::WaitingGet,
            kind => kind,
        }
    }
}

/// The times of one thread's commands, which that thread alone adds.
#[derive(Debug)]
pub struct Times {
    // a row of places for each kind; empty, where no command is timed
    counts: Vec<Counter>,
    // so many commands are passed over until one is timed
    left: AtomicU32,
    seed: AtomicU64,
}

impl Times {
    /// Commands are timed from now on, or none is.
    #[must_use]
    pub fn new(are_taken: bool) -> Times {
        let places = if are_taken { PLACES * KINDS.len() } else { 0 };
        let counts = (0..places).map(|_| Counter::default()).collect();
        Times { counts, left: AtomicU32::new(0), seed: AtomicU64::new(1) }
    }

    /// When a command begins, if it is one that is timed.
    #[inline]
    pub fn begin(&self) -> Option<Instant> {
        let left = self.left.load(Relaxed);
        if left > 0 {
            self.left.store(left - 1, Relaxed);
            return None;
        }
        self.left.store(self.draw(), Relaxed);
        (!self.counts.is_empty()).then(Instant::now)
    }

    // From 0 to 31, each alike, so that no row of commands has the same ones timed always.
    fn draw(&self) -> u32 {
        let seed = self.seed.load(Relaxed);
        let next = seed.wrapping_mul(6_364_136_223_846_793_005).wrapping_add(1_442_695_040_888_963_407);
        self.seed.store(next, Relaxed);
        (next >> 59) as u32
    }

    /// Counts one that took so long.
    pub fn add(&self, kind: Kind, time: Duration) {
        let nanoseconds = u64::try_from(time.as_nanos()).unwrap_or(u64::MAX);
        if let Some(count) = self.counts.get(PLACES * kind as usize + Histogram::place(nanoseconds)) {
            count.one();
        }
    }

    /// Those of all threads.
    #[must_use]
    pub fn of_all(all: &[&Times]) -> Histograms {
        KINDS.map(|(kind, _)| {
            let count =
                |times: &&Times, place: usize| times.counts.get(PLACES * kind as usize + place).map_or(0, Counter::get);
            Histogram::of_counts((0..PLACES).map(|place| all.iter().map(|times| count(times, place)).sum()))
        })
    }
}

#[cfg(test)]
mod tests {
    use super::*;

    #[test]
    fn one_in_sixteen_is_timed_and_none_where_nobody_looks() {
        let (some, none) = (Times::new(true), Times::new(false));
        let timed = (0..100_000).filter(|_| some.begin().is_some()).count();
        assert!((5_700..6_400).contains(&timed), "{timed}");
        assert!((0..1000).all(|_| none.begin().is_none()));
        none.add(Kind::Other, Duration::MAX);
    }

    // Not each sixteenth, or each in a row of eight at once would have the same one timed always.
    #[test]
    fn each_in_a_row_has_its_turn() {
        let times = Times::new(true);
        let mut timed = [0; 8];
        for number in 0..80_000 {
            timed[number % 8] += usize::from(times.begin().is_some());
        }
        assert!(timed.iter().all(|count| (450..800).contains(count)), "{timed:?}");
    }

    #[test]
    fn the_times_of_all_threads_are_added_by_their_kinds() {
        let (one, other) = (Times::new(true), Times::new(true));
        one.add(Kind::Get.where_it(true), Duration::from_millis(3));
        other.add(Kind::Get.where_it(false), Duration::from_micros(5));
        other.add(Kind::Store.where_it(true), Duration::MAX);
        let [gets, waiting, stores, others] = Times::of_all(&[&one, &other]);
        let counts = [&gets, &waiting, &stores, &others].map(Histogram::count);
        assert_eq!(counts, [1, 1, 1, 0]);
        let (short, long) = (gets.quantile(0.5), waiting.quantile(0.5));
        assert!((5_000..5_200).contains(&short) && (3_000_000..3_100_000).contains(&long), "{short}, {long}");
    }
}
