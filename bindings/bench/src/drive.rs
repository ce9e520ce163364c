//! Drives a cache: threads put requests to it, and what came of them is counted.
use crate::errors::SourceError;
use crate::feed::{wait_until, Batch, Feed, Pace, MANY};
use crate::progress::Progress;
use crate::request::{Passed, Source};
use crate::samples::{Sample, Samples};
use crate::stop;
use crate::tally::Tally;
use crate::target::Target;
use std::panic::resume_unwind;
use std::thread;
use std::time::{Duration, Instant};

/// How requests are put.
#[derive(Clone, Debug)]
pub struct Way {
    pub threads: usize,
    pub pace: Pace,
    /// The first requests, which fill the cache at full speed and aren't counted.
    pub warm: u64,
    /// Now and then requests wait until flash has what left memory, so that what hits doesn't depend on how fast it is.
    pub keeps_up: bool,
    /// No line tells how far it is.
    pub is_quiet: bool,
}

/// What came of requests.
#[derive(Debug)]
pub struct Driven {
    pub tally: Tally,
    pub samples: Samples,
    pub seconds: f64,
    pub passed: Passed,
    /// Why requests ended before their end.
    pub error: Option<SourceError>,
}

// So many requests are made before what stands behind an answer is waited for.
const FEW: usize = 16;
// The state of the run is looked at as often.
const GLANCE: Duration = Duration::from_millis(20);
// And noted as often.
const SAMPLE: Duration = Duration::from_millis(100);

/// Puts all requests to the cache, those that aren't counted first; between both `begin` is called.
pub fn drive(source: Box<dyn Source>, target: &dyn Target, way: &Way, begin: impl FnOnce()) -> Driven {
    let feed = Feed::new(source, if way.keeps_up { FEW } else { MANY });
    let mut progress = Progress::new(way.is_quiet);
    if way.warm > 0 {
        feed.begin(way.warm, Pace::Full);
        part(&feed, target, way, &mut progress);
    }
    feed.begin(u64::MAX, way.pace);
    begin();
    let (tally, samples, seconds) = part(&feed, target, way, &mut progress);
    progress.end();
    let (passed, error) = feed.ended();
    Driven { tally, samples, seconds, passed, error }
}

// Puts requests until there are no more: what came of them, and the seconds that it took.
fn part(
    feed: &Feed<Box<dyn Source>>,
    target: &dyn Target,
    way: &Way,
    progress: &mut Progress,
) -> (Tally, Samples, f64) {
    let (before, given) = (target.so_far(), feed.done().1);
    let mut samples = Samples::default();
    let (mut all, begun) = (Tally::default(), Instant::now());
    let mut end = begun;
    let mut note =
        |requests: u64, passed: Duration| samples.add(since(target.so_far(), &before, requests - given, passed));
    thread::scope(|scope| {
        let workers: Vec<_> =
            (0..way.threads).map(|_| scope.spawn(|| (work(feed, target, way.keeps_up), Instant::now()))).collect();
        let mut next = begun;
        while !workers.iter().all(|worker| worker.is_finished()) {
            let (share, count) = feed.done();
            progress.show(share, count);
            if Instant::now() >= next {
                note(count, begun.elapsed());
                next += SAMPLE;
            }
            thread::sleep(GLANCE);
        }
        for worker in workers {
            let (tally, ended) = worker.join().unwrap_or_else(|panic| resume_unwind(panic));
            all.add_all(&tally);
            end = end.max(ended);
        }
    });
    note(feed.done().1, end - begun);
    (all, samples, (end - begun).as_secs_f64())
}

fn since(now: Sample, before: &Sample, requests: u64, passed: Duration) -> Sample {
    Sample {
        seconds: passed.as_secs_f64(),
        requests,
        hits: now.hits.saturating_sub(before.hits),
        misses: now.misses.saturating_sub(before.misses),
        written: now.written.saturating_sub(before.written),
    }
}

// What one thread does. A request that is due is measured from then on, so that none is left out that a stall kept waiting.
fn work<S: Source>(feed: &Feed<S>, target: &dyn Target, keeps_up: bool) -> Tally {
    let (mut batch, mut tally) = (Batch::default(), Tally::default());
    while feed.fill(&mut batch) {
        if let Some(due) = batch.due() {
            wait_until(due);
            if stop::is_told() {
                break;
            }
        }
        for request in batch.requests() {
            let begun = batch.due().unwrap_or_else(Instant::now);
            let answer = target.ask(request);
            tally.add(request, answer, begun.elapsed().as_nanos() as u64);
        }
        if keeps_up {
            target.settle();
        }
    }
    tally
}

#[cfg(test)]
mod tests {
    use super::*;
    use crate::request::{Op, Request};
    use crate::target::Answer;
    use std::sync::atomic::{AtomicBool, Ordering::Relaxed};

    struct Gets(u64);

    impl Source for Gets {
        fn next(&mut self, request: &mut Request) -> Result<bool, SourceError> {
            request.op = Op::Look;
            self.0 = self.0.saturating_sub(1);
            Ok(self.0 > 0)
        }

        fn share_done(&self) -> Option<f64> {
            None
        }
    }

    // Answers at once, but for the first time.
    struct Stalls(AtomicBool);

    impl Target for Stalls {
        fn ask(&self, _: &Request) -> Answer {
            if !self.0.swap(true, Relaxed) {
                thread::sleep(Duration::from_millis(200));
            }
            Answer::Hit { from_flash: false, bytes: 1 }
        }
    }

    // Of a hundred requests that are due within 100 ms, those behind a stall of 200 ms took 100 ms or more.
    #[test]
    fn a_stall_is_counted_by_all_that_it_kept_waiting() {
        let feed = Feed::new(Gets(101), MANY);
        feed.begin(u64::MAX, Pace::Rate(1000.0));
        let tally = work(&feed, &Stalls(AtomicBool::new(false)), false);
        assert_eq!(tally.memory_hits.count(), 100);
        assert!(tally.memory_hits.quantile(0.01) >= 100_000_000, "{}", tally.memory_hits.quantile(0.01));
    }
}
