//! What the requests are put to.
use crate::request::{Op, Request};
use crate::samples::Sample;
use crate::sizes::LONGEST_VALUE;
use kilambosetry::{flash_waits, HybridCache};
use std::convert::Infallible;

/// The longest key that the cache takes, in bytes.
pub const LONGEST_KEY: usize = 255;

/// The bytes that all values begin with.
#[must_use]
pub fn longest_value() -> Vec<u8> {
    vec![7; LONGEST_VALUE]
}

/// What came of a request.
#[derive(Clone, Copy, Debug, PartialEq, Eq)]
pub enum Answer {
    Hit {
        from_flash: bool,
        bytes: usize,
    },
    /// Of a get that stores what it misses, that is done too.
    Miss,
    /// The key or the value is longer than the cache takes: of a get it is a miss, and stores nothing.
    TooLong,
    Stored,
    Deleted,
    /// The cache refused it: there is no memory for it.
    Refused,
}

/// A cache that is asked by several threads.
pub trait Target: Sync {
    fn ask(&self, request: &Request) -> Answer;

    /// Waits until it has done what it does behind its answers.
    fn settle(&self) {}

    /// What it has counted since it was opened: hits, misses and bytes written to flash, where it does.
    fn so_far(&self) -> Sample {
        Sample::default()
    }
}

/// This cache.
pub struct Hybrid {
    pub cache: HybridCache,
    /// Bytes of a page of flash; 0 without flash.
    pub page: u64,
    value: Vec<u8>,
}

impl Hybrid {
    /// A cache, and the bytes that all values begin with.
    #[must_use]
    pub fn new(cache: HybridCache, value: Vec<u8>) -> Hybrid {
        let page = cache.numbers().flash.map_or(0, |flash| flash.page);
        Hybrid { cache, page, value }
    }

    // A get, which stores so many bytes where it misses.
    fn get(&self, key: &[u8], bytes: usize, ttl: u32) -> Answer {
        let (before, mut is_miss) = (flash_waits(), false);
        let load = || {
            is_miss = true;
            Ok::<_, Infallible>(&self.value[..bytes])
        };
        match self.cache.get_or_load(key, ttl, load) {
            Ok(value) if !is_miss => Answer::Hit { from_flash: flash_waits() != before, bytes: value.len() },
            _ => Answer::Miss,
        }
    }

    fn look(&self, key: &[u8]) -> Answer {
        let before = flash_waits();
        match self.cache.get(key) {
            Ok(Some(value)) => Answer::Hit { from_flash: flash_waits() != before, bytes: value.len() },
            Ok(None) => Answer::Miss,
            Err(_) => Answer::Refused,
        }
    }
}

impl Target for Hybrid {
    fn ask(&self, request: &Request) -> Answer {
        let Request { op, ref key, value, ttl, .. } = *request;
        let is_stored = matches!(op, Op::Get | Op::Set);
        if key.is_empty() || key.len() > LONGEST_KEY || (is_stored && value > LONGEST_VALUE) {
            return Answer::TooLong;
        }
        match op {
            Op::Get => self.get(key, value, ttl),
            Op::Look => self.look(key),
            Op::Set => self.cache.set(key, &self.value[..value], ttl).map_or(Answer::Refused, |()| Answer::Stored),
            Op::Delete => self.cache.delete(key).map_or(Answer::Refused, |_| Answer::Deleted),
        }
    }

    fn settle(&self) {
        // (a cache that is closed has nothing to be waited for)
        let _ = self.cache.flush();
    }

    fn so_far(&self) -> Sample {
        let stats = self.cache.stats();
        let written = stats.device.writes * self.page;
        Sample { hits: stats.hits(), misses: stats.misses(), written, ..Sample::default() }
    }
}
