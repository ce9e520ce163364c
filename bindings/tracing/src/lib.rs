//! The calls of a [`HybridCache`] as spans of the crate `tracing`, and what it forgets as events. It is a package of its own, since the
//! crate itself stands on no other.
//!
//! ```
//! use kilambosetry::{HybridCache, Options};
//! use kilambosetry_tracing::Traced;
//! use std::io;
//!
//! let cache = Traced(HybridCache::in_memory(&Options::default())?);
//! let row = cache.get_or_load(b"user:7", 3600, || Ok::<_, io::Error>("Ada"))?; // a span, with that of the load within
//! assert_eq!(&row[..], b"Ada");
//! # Ok::<(), Box<dyn std::error::Error>>(())
//! ```
#![warn(missing_docs)]
#![forbid(unsafe_code)]

use kilambosetry::{flash_waits, Error, Gone, HybridCache, LoadError, Loaded, Value};
use std::cell::Cell;
use std::fmt;
use std::future::Future;
use tracing::field::Empty;
use tracing::{debug, debug_span, Instrument, Span};

/// A cache whose calls here are spans, of the level `DEBUG` and the target `kilambosetry_tracing`. All other calls are those of the cache
/// within.
///
/// A span has the key's `shard`, and `from`: where the answer came from, `memory`, `flash`, or `none`; of loads also `load`, or
/// `elsewhere` where another's was waited for and failed. Of one that is refused, or fails, `error` says why. No key and no row is told,
/// which may be nobody's business. While a row is loaded, or a change committed, there is a span within, `load` or `commit`.
///
/// Where nobody has asked for spans, one costs a look at a number.
#[derive(Clone, Debug)]
pub struct Traced(pub HybridCache);

impl Traced {
    /// As [`HybridCache::get`], in the span `get`.
    pub fn get(&self, key: &[u8]) -> Result<Option<Value>, Error> {
        let span = debug_span!("get", shard = self.0.shard_of(key), from = Empty, error = Empty);
        span.in_scope(|| {
            let waits = flash_waits();
            let found = self.0.get(key);
            match &found {
                Ok(Some(_)) => record_from(&span, waits),
                Ok(None) => _ = span.record("from", "none"),
                Err(error) => record_error(&span, error),
            }
            found
        })
    }

    /// As [`HybridCache::set`], in the span `set`.
    pub fn set(&self, key: &[u8], value: &[u8], ttl: u32) -> Result<(), Error> {
        let span = debug_span!("set", shard = self.0.shard_of(key), bytes = value.len(), error = Empty);
        span.in_scope(|| self.0.set(key, value, ttl)).inspect_err(|error| record_error(&span, error))
    }

    /// As [`HybridCache::delete`], in the span `delete`.
    pub fn delete(&self, key: &[u8]) -> Result<bool, Error> {
        let span = debug_span!("delete", shard = self.0.shard_of(key), error = Empty);
        span.in_scope(|| self.0.delete(key)).inspect_err(|error| record_error(&span, error))
    }

    /// As [`HybridCache::change`], in the span `change`; the commit is in `commit`.
    pub fn change<T, E: fmt::Display>(&self, key: &[u8], commit: impl FnOnce() -> Result<T, E>) -> Result<T, E> {
        let span = debug_span!("change", shard = self.0.shard_of(key), error = Empty);
        let commit = || debug_span!("commit").in_scope(commit);
        span.in_scope(|| self.0.change(key, commit)).inspect_err(|error| record_error(&span, error))
    }

    /// As [`HybridCache::get_or_load`], in the span `get_or_load`; the load, where this call makes it, is in `load`.
    pub fn get_or_load<V: Into<Vec<u8>>, E: fmt::Display>(
        &self,
        key: &[u8],
        ttl: u32,
        load: impl FnOnce() -> Result<V, E>,
    ) -> Result<Value, LoadError<E>> {
        let span = debug_span!("get_or_load", shard = self.0.shard_of(key), from = Empty, error = Empty);
        let asked = Asked::new();
        span.in_scope(|| {
            let found = self.0.get_or_load(key, ttl, || asked.load(load));
            asked.record(&span, &found, true);
            found
        })
    }

    /// As [`HybridCache::find_or_load`], in the span `find_or_load`; the load, where this call makes it, is in `load`.
    pub fn find_or_load<E: fmt::Display>(
        &self,
        key: &[u8],
        load: impl FnOnce() -> Result<Loaded, E>,
    ) -> Result<Option<Value>, LoadError<E>> {
        let span = debug_span!("find_or_load", shard = self.0.shard_of(key), from = Empty, error = Empty);
        let asked = Asked::new();
        span.in_scope(|| {
            let found = self.0.find_or_load(key, || asked.load(load));
            asked.record(&span, &found, matches!(found, Ok(Some(_))));
            found
        })
    }

    /// As [`HybridCache::find_or_load_async`], in the span `find_or_load`, for as long as the future isn't ready; the load, where this call
    /// makes it, is in `load`. From where a row came is told as `load`, `elsewhere`, or not.
    pub async fn find_or_load_async<E: fmt::Display, F: Future<Output = Result<Loaded, E>>>(
        &self,
        key: &[u8],
        load: impl FnOnce() -> F,
    ) -> Result<Option<Value>, LoadError<E>> {
        let span = debug_span!("find_or_load", shard = self.0.shard_of(key), from = Empty, error = Empty);
        let has_loaded = Cell::new(false);
        let load = || {
            has_loaded.set(true);
            load().instrument(debug_span!("load"))
        };
        let found = self.0.find_or_load_async(key, load).instrument(span.clone()).await;
        record_load(&span, &found, has_loaded.get());
        found
    }
}

/// Tells what was forgotten as an event: its cause, how many, and the key's length, where it is known. For a thread that
/// [listens](HybridCache::listen): `cache.listen(10_000)?.for_each(|gone| tell(&gone))`.
pub fn tell(gone: &Gone) {
    debug!(cause = ?gone.cause, count = gone.count, key_bytes = gone.key.as_ref().map(Vec::len), "gone");
}

// What is known of a call that may load.
struct Asked {
    waits: u64,
    has_loaded: Cell<bool>,
}

impl Asked {
    fn new() -> Asked {
        Asked { waits: flash_waits(), has_loaded: Cell::new(false) }
    }

    fn load<T>(&self, load: impl FnOnce() -> T) -> T {
        self.has_loaded.set(true);
        debug_span!("load").in_scope(load)
    }

    fn record<T, E: fmt::Display>(&self, span: &Span, found: &Result<T, LoadError<E>>, is_row: bool) {
        match found {
            Ok(_) if self.has_loaded.get() => record_load(span, found, true),
            Ok(_) if is_row => record_from(span, self.waits),
            Ok(_) => _ = span.record("from", "none"),
            Err(_) => record_load(span, found, self.has_loaded.get()),
        }
    }
}

fn record_load<T, E: fmt::Display>(span: &Span, found: &Result<T, LoadError<E>>, has_loaded: bool) {
    match found {
        Ok(_) if has_loaded => _ = span.record("from", "load"),
        Ok(_) => {}
        Err(error) => {
            span.record("from", if has_loaded { "load" } else { "elsewhere" });
            record_error(span, error);
        }
    }
}

// Whether a value came from flash is known by whether this thread's calls have waited for it.
fn record_from(span: &Span, waits: u64) {
    span.record("from", if flash_waits() == waits { "memory" } else { "flash" });
}

fn record_error(span: &Span, error: &impl fmt::Display) {
    span.record("error", tracing::field::display(error));
}
