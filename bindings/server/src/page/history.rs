//! What was counted in the last hour: a ring of samples.
use crate::counters::Sums;
use crate::limits::has_memory;
use crate::server::Server;
use crate::times::Histograms;
use kilambosetry::{Histogram, Stats};
use std::collections::VecDeque;
use std::sync::{Arc, Mutex, MutexGuard, PoisonError};
use std::time::Duration;
use tokio::time::MissedTickBehavior;

/// A sample is kept as often.
pub const EACH: Duration = Duration::from_secs(10);
/// Those of an hour, with the one at its begin.
const MOST: usize = 361;
// The times of all commands are kept once in so many samples: ten minutes.
const MARK: usize = 60;
// What a sample takes, as it is made. Where there is no memory for it, it is left out.
const OF_A_SAMPLE: usize = 256 * 1024;

/// The quantiles that are kept of gets, with their names.
pub const QUANTILES: [(&str, f64); 3] = [("p50", 0.5), ("p99", 0.99), ("p99.9", 0.999)];

/// What was counted up to a moment.
#[derive(Clone, Copy, Debug)]
pub struct Sample {
    /// Since the server began.
    pub at: Duration,
    pub stats: Stats,
    pub sums: Sums,
    /// Finds of items that were flushed.
    pub flushed: u64,
    /// How long gets took since the sample before, in nanoseconds; none, where none was timed.
    pub gets: Option<[u64; QUANTILES.len()]>,
}

/// The samples of the last hour.
#[derive(Debug)]
pub struct History(Mutex<Kept>);

#[derive(Debug, Default)]
struct Kept {
    samples: VecDeque<Sample>,
    // as of the last sample
    times: Option<Histograms>,
    // as of each ten minutes, the first up to an hour ago
    marks: VecDeque<Histograms>,
    // samples since the last mark
    since: usize,
}

/// Keeps samples of a server, for good.
pub async fn keep(server: Arc<Server>) {
    let mut ticks = tokio::time::interval(EACH);
    ticks.set_missed_tick_behavior(MissedTickBehavior::Delay);
    loop {
        ticks.tick().await;
        if has_memory(OF_A_SAMPLE) {
            server.note();
        }
    }
}

impl History {
    /// There is none yet. Where there will be, it has its memory from now on.
    #[must_use]
    pub fn new(will_be: bool) -> History {
        let samples = VecDeque::with_capacity(if will_be { MOST } else { 0 });
        History(Mutex::new(Kept { samples, ..Kept::default() }))
    }

    /// Keeps a sample, with how long commands have taken up to it.
    pub fn note(&self, sample: Sample, times: Histograms) {
        self.lock().note(sample, times);
    }

    /// Shows the samples in their order, and how long commands took from an hour or so before the last of them.
    pub fn show<T>(&self, shows: impl FnOnce(&[Sample], Option<Histograms>) -> T) -> T {
        let mut kept = self.lock();
        let times = kept.times_of_hour();
        shows(kept.samples.make_contiguous(), times)
    }

    fn lock(&self) -> MutexGuard<'_, Kept> {
        self.0.lock().unwrap_or_else(PoisonError::into_inner)
    }
}

impl Kept {
    fn note(&mut self, mut sample: Sample, times: Histograms) {
        sample.gets = self.times.as_ref().and_then(|before| quantiles(&times, before));
        if self.samples.len() == MOST {
            self.samples.pop_front();
        }
        self.samples.push_back(sample);
        if self.since == 0 {
            self.marks.push_back(times.clone());
        }
        // (the last but six is an hour and up to ten minutes old)
        if self.marks.len() > MOST / MARK {
            self.marks.pop_front();
        }
        self.since = (self.since + 1) % MARK;
        self.times = Some(times);
    }

    fn times_of_hour(&self) -> Option<Histograms> {
        let (times, first) = (self.times.as_ref()?, self.marks.front()?);
        Some(std::array::from_fn(|kind| times[kind].since(&first[kind])))
    }
}

// How long gets took since then, at once or with a wait.
fn quantiles(now: &Histograms, before: &Histograms) -> Option<[u64; QUANTILES.len()]> {
    let [mut gets, waiting] = [0, 1].map(|kind: usize| now[kind].since(&before[kind]));
    gets.add_all(&waiting);
    (gets.count() > 0).then(|| QUANTILES.map(|(_, share)| Histogram::quantile(&gets, share)))
}

/// How much a count has grown. One that is less than before began anew.
#[must_use]
pub fn grown(before: u64, now: u64) -> u64 {
    now.checked_sub(before).unwrap_or(now)
}

/// How much a number of these samples has grown from the first to the last.
#[must_use]
pub fn sum(samples: &[Sample], number: impl Fn(&Sample) -> u64) -> u64 {
    samples.windows(2).map(|two| grown(number(&two[0]), number(&two[1]))).sum()
}

#[cfg(test)]
mod tests {
    use super::*;
    use crate::times::{Kind, Times};

    fn sample(second: u64) -> Sample {
        let (stats, sums) = (Stats::default(), Sums { cmd_set: second, ..Sums::default() });
        Sample { at: Duration::from_secs(second), stats, sums, flushed: 0, gets: None }
    }

    // However long it runs, it has the samples of an hour, and the times of no more.
    #[test]
    fn an_hour_is_kept() {
        let (history, times) = (History::new(true), Times::new(true));
        history.show(|samples, times| assert!(samples.is_empty() && times.is_none()));
        let room = history.lock().samples.capacity();
        for number in 0..2000 {
            times.add(Kind::Get, Duration::from_micros(number));
            history.note(sample(number * 10), Times::of_all(&[&times]));
            let kept = history.lock();
            assert!(kept.samples.len() <= MOST && kept.marks.len() <= 6 && kept.samples.capacity() == room);
        }
        history.show(|samples, times| {
            assert_eq!((samples.len(), samples[360].at - samples[0].at), (361, Duration::from_secs(3600)));
            assert_eq!(sum(samples, |sample| sample.sums.cmd_set), 3600);
            assert!(samples.iter().all(|sample| sample.gets.is_some_and(|gets| gets[0] > 0)));
            let gets = times.unwrap()[0].count();
            assert!((300..360).contains(&gets), "{gets}");
        });
    }

    #[test]
    fn a_sample_without_gets_has_no_times() {
        let (history, times) = (History::new(false), Times::new(true));
        history.note(sample(0), Times::of_all(&[&times]));
        times.add(Kind::Store, Duration::from_secs(1));
        history.note(sample(10), Times::of_all(&[&times]));
        history.show(|samples, times| {
            assert!(samples.iter().all(|sample| sample.gets.is_none()) && times.unwrap()[2].count() == 1);
        });
    }

    #[test]
    fn a_count_that_began_anew_grew_by_what_it_is() {
        assert_eq!((grown(5, 7), grown(7, 5), grown(5, 5)), (2, 5, 0));
    }
}
