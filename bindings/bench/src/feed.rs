//! Hands requests out to threads, and says when each is due.
use crate::errors::SourceError;
use crate::request::{Passed, Request, Source};
use crate::stop;
use std::fmt;
use std::str::FromStr;
use std::sync::{Mutex, MutexGuard, PoisonError};
use std::thread;
use std::time::{Duration, Instant};

/// When requests are made.
#[derive(Clone, Copy, Debug, PartialEq)]
pub enum Pace {
    /// As fast as they are answered.
    Full,
    /// So many a second.
    Rate(f64),
    /// At the trace's own times, so many times as fast.
    Own(f64),
}

impl FromStr for Pace {
    type Err = String;

    /// `full`, `50000` (a second), `own` or `own:10`.
    fn from_str(text: &str) -> Result<Pace, String> {
        // (within these all moments can be told)
        let number = |text: &str| text.parse::<f64>().ok().filter(|number| (0.01..=1e9).contains(number));
        let pace = match text {
            "full" => Some(Pace::Full),
            "own" => Some(Pace::Own(1.0)),
            _ => match text.strip_prefix("own:") {
                Some(times) => number(times).map(Pace::Own),
                None => number(text).map(Pace::Rate),
            },
        };
        pace.ok_or_else(|| {
            "it is full, a number of requests a second, own, or own:TIMES (numbers from 0.01 to 1e9)".to_string()
        })
    }
}

impl fmt::Display for Pace {
    fn fmt(&self, f: &mut fmt::Formatter<'_>) -> fmt::Result {
        match self {
            Pace::Full => f.write_str("full"),
            Pace::Rate(rate) => write!(f, "{rate}"),
            Pace::Own(times) => write!(f, "own:{times}"),
        }
    }
}

/// A thread takes so many requests at a time where none has to be waited for.
pub const MANY: usize = 256;

/// Requests that a thread has taken, to be used again and again.
#[derive(Debug, Default)]
pub struct Batch {
    requests: Vec<Request>,
    len: usize,
    due: Option<Instant>,
}

impl Batch {
    #[must_use]
    pub fn requests(&self) -> &[Request] {
        &self.requests[..self.len]
    }

    /// When it is due, if that isn't at once.
    #[must_use]
    pub fn due(&self) -> Option<Instant> {
        self.due
    }
}

struct Inner<S> {
    source: S,
    given: u64,
    // this part of the run: its end, its pace, and when the first of its requests was made, by our clock and by the trace's
    end: u64,
    pace: Pace,
    first: Option<(Instant, u64, Duration)>,
    error: Option<SourceError>,
}

/// Requests for several threads.
pub struct Feed<S> {
    inner: Mutex<Inner<S>>,
    many: usize,
}

impl<S: Source> Feed<S> {
    /// Hands out all of them, at full speed, and so many at a time.
    #[must_use]
    pub fn new(source: S, many: usize) -> Feed<S> {
        let inner = Inner { source, given: 0, end: u64::MAX, pace: Pace::Full, first: None, error: None };
        Feed { inner: Mutex::new(inner), many }
    }

    fn lock(&self) -> MutexGuard<'_, Inner<S>> {
        self.inner.lock().unwrap_or_else(PoisonError::into_inner)
    }

    /// A part of the run begins: it ends behind the request of this number, and has this pace. What is due has its time from the
    /// part's first request on, and is handed out by itself.
    pub fn begin(&self, end: u64, pace: Pace) {
        let inner = &mut *self.lock();
        (inner.end, inner.pace, inner.first) = (end, pace, None);
    }

    /// Takes the next requests. Whether there are any.
    pub fn fill(&self, batch: &mut Batch) -> bool {
        batch.len = 0;
        let inner = &mut *self.lock();
        let many = if inner.pace == Pace::Full { self.many } else { 1 };
        while batch.len < many && inner.given < inner.end && inner.error.is_none() && !stop::is_told() {
            if batch.len == batch.requests.len() {
                batch.requests.push(Request::default());
            }
            match inner.source.next(&mut batch.requests[batch.len]) {
                Ok(true) => {
                    batch.len += 1;
                    inner.given += 1;
                }
                Ok(false) => break,
                Err(error) => inner.error = Some(error),
            }
        }
        batch.due = batch.requests().first().and_then(|request| inner.due(request.at));
        batch.len > 0
    }

    /// The share that was handed out, where it is known, and how many.
    pub fn done(&self) -> (Option<f64>, u64) {
        let inner = self.lock();
        (inner.source.share_done(), inner.given)
    }

    /// What was passed over, and why it ended before its end.
    pub fn ended(self) -> (Passed, Option<SourceError>) {
        let inner = self.inner.into_inner().unwrap_or_else(PoisonError::into_inner);
        (inner.source.passed(), inner.error)
    }
}

impl<S> Inner<S> {
    // When the last request is due that was handed out, which the trace has at this time.
    fn due(&mut self, at: Duration) -> Option<Instant> {
        if self.pace == Pace::Full {
            return None;
        }
        let (begun, number, first_at) = *self.first.get_or_insert_with(|| (Instant::now(), self.given, at));
        let since = match self.pace {
            Pace::Rate(rate) => Duration::from_secs_f64((self.given - number) as f64 / rate),
            Pace::Own(times) => at.saturating_sub(first_at).div_f64(times),
            Pace::Full => Duration::ZERO,
        };
        Some(begun + since)
    }
}

// Nearer than this the system's sleep may end too late.
const NEAR: Duration = Duration::from_millis(1);
// Ctrl-C is looked for as often, while a request isn't due.
const NAP: Duration = Duration::from_millis(50);

/// Waits until then, or until the run is to end.
pub fn wait_until(due: Instant) {
    loop {
        let left = due.saturating_duration_since(Instant::now());
        if left.is_zero() || stop::is_told() {
            return;
        }
        if left > NEAR {
            thread::sleep((left - NEAR).min(NAP));
        } else {
            thread::yield_now();
        }
    }
}

#[cfg(test)]
mod tests {
    use super::*;

    #[test]
    fn paces_are_read() {
        for (text, pace) in [("full", Pace::Full), ("2e3", Pace::Rate(2000.0)), ("own:10", Pace::Own(10.0))] {
            assert_eq!(text.parse(), Ok(pace), "{text}");
        }
        for text in ["", "0", "-1", "1e-3", "1e10", "own:", "own:0", "own:1e-3", "nan", "inf", "fast"] {
            assert!(text.parse::<Pace>().is_err(), "{text}");
        }
    }
}
