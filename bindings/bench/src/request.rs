//! A request, and where requests come from.
use crate::errors::SourceError;
use std::time::Duration;

/// What is asked of the cache.
#[derive(Clone, Copy, Debug, Default, PartialEq, Eq)]
pub enum Op {
    /// A get that stores what it misses, as a service does that loads it.
    #[default]
    Get,
    /// A get that stores nothing.
    Look,
    Set,
    Delete,
}

#[derive(Clone, Debug, Default, PartialEq, Eq)]
pub struct Request {
    pub op: Op,
    pub key: Vec<u8>,
    /// Bytes of the value.
    pub value: usize,
    /// Seconds to live, 0 for good.
    pub ttl: u32,
    /// When it was made, by the trace's own times.
    pub at: Duration,
}

/// What a source had to pass over, or to guess.
#[derive(Clone, Copy, Debug, Default, PartialEq, Eq)]
pub struct Passed {
    /// Lines that were read, bad ones and a head too.
    pub lines: u64,
    /// Lines that aren't of the form.
    pub bad: u64,
    /// Gets with a size of zero: nobody knows what a miss would load, so they store nothing.
    pub unsized_gets: u64,
}

/// Requests, one after the other.
pub trait Source: Send {
    /// Puts the next one into `request`. Whether there was one.
    fn next(&mut self, request: &mut Request) -> Result<bool, SourceError>;

    /// The share of all requests that was handed out, where that is known.
    fn share_done(&self) -> Option<f64>;

    fn passed(&self) -> Passed {
        Passed::default()
    }
}

/// The first so many requests of a source.
pub struct First<S> {
    source: S,
    left: u64,
    all: u64,
}

impl<S: Source> First<S> {
    #[must_use]
    pub fn new(source: S, count: u64) -> First<S> {
        First { source, left: count, all: count }
    }
}

impl<S: Source> Source for First<S> {
    fn next(&mut self, request: &mut Request) -> Result<bool, SourceError> {
        if self.left == 0 {
            return Ok(false);
        }
        self.left -= 1;
        self.source.next(request)
    }

    fn share_done(&self) -> Option<f64> {
        let ours = (self.all - self.left) as f64 / self.all.max(1) as f64;
        Some(self.source.share_done().unwrap_or(0.0).max(ours))
    }

    fn passed(&self) -> Passed {
        self.source.passed()
    }
}

impl Source for Box<dyn Source> {
    fn next(&mut self, request: &mut Request) -> Result<bool, SourceError> {
        (**self).next(request)
    }

    fn share_done(&self) -> Option<f64> {
        (**self).share_done()
    }

    fn passed(&self) -> Passed {
        (**self).passed()
    }
}
