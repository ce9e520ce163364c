//! A run: a cache is opened, requests are put to it, and what came of them is told with what the cache has counted.
use crate::counts::Counts;
use crate::drive::{drive, Driven, Way};
use crate::errors::SourceError;
use crate::request::{Passed, Source};
use crate::resident::resident;
use crate::samples::Samples;
use crate::stop;
use crate::tally::Tally;
use crate::target::{longest_value, Hybrid};
use kilambosetry::{HybridCache, Numbers, OpenError, Options};
use std::path::PathBuf;

/// Where the flash is.
#[derive(Clone, Debug, PartialEq, Eq)]
pub enum Place {
    /// Nowhere: the cache is in memory alone.
    None,
    /// In a file without a name in this folder.
    Folder(PathBuf),
    /// In this file, or on this block device.
    File(PathBuf),
}

impl Place {
    /// An error, with the path where it says something of that.
    #[must_use]
    pub fn named(&self, error: OpenError) -> String {
        match (self, &error) {
            (Place::None, _) | (_, OpenError::Number { .. } | OpenError::Refused(_)) => error.to_string(),
            (Place::Folder(path) | Place::File(path), _) => format!("{}: {error}", path.display()),
        }
    }
}

/// What was measured.
#[derive(Debug)]
pub struct Measured {
    pub tally: Tally,
    pub counts: Counts,
    pub seconds: f64,
    pub numbers: Numbers,
    /// Bytes of a page of flash; 0 without flash.
    pub page: u64,
    /// Bytes that became resident since the cache was opened.
    pub resident: Option<u64>,
    pub samples: Samples,
    pub passed: Passed,
    /// Why requests ended before their end.
    pub error: Option<SourceError>,
    /// It was ended by Ctrl-C.
    pub is_stopped: bool,
}

impl Measured {
    /// Bytes that were written to flash.
    #[must_use]
    pub fn written(&self) -> u64 {
        self.counts.writes * self.page
    }

    /// Bytes written to flash for each byte of key and value that was stored.
    #[must_use]
    pub fn amplification(&self) -> f64 {
        self.written() as f64 / self.tally.bytes_stored.max(1) as f64
    }

    #[must_use]
    pub fn rate(&self) -> f64 {
        self.tally.requests() as f64 / self.seconds.max(1e-9)
    }
}

/// Opens a cache and puts the requests to it.
pub fn run(source: Box<dyn Source>, options: &Options, place: &Place, way: &Way) -> Result<Measured, OpenError> {
    let value = longest_value();
    let before = resident();
    let hybrid = Hybrid::new(open(options, place)?, value);
    let mut first = Counts::default();
    let driven = drive(source, &hybrid, way, || first = Counts::of(&hybrid.cache.stats()));
    let counts = Counts::of(&hybrid.cache.stats()).since(&first);
    // (of what the cache has: the threads' own tables are gone, or small)
    let resident = before.zip(resident()).map(|(before, after)| after.saturating_sub(before));
    let numbers = hybrid.cache.numbers();
    let (page, is_stopped) = (hybrid.page, stop::is_told());
    let Driven { tally, samples, seconds, passed, error } = driven;
    Ok(Measured { tally, counts, seconds, numbers, page, resident, samples, passed, error, is_stopped })
}

fn open(options: &Options, place: &Place) -> Result<HybridCache, OpenError> {
    match place {
        Place::None => HybridCache::in_memory(options),
        Place::Folder(path) => HybridCache::open(path, &Options { unnamed: true, ..options.clone() }),
        Place::File(path) => HybridCache::open(path, options),
    }
}
