//! Which calls of a thread had to wait for flash.
use std::cell::Cell;

thread_local! {
    static WAITS: Cell<u64> = const { Cell::new(0) };
}

/// How many calls of this thread have waited for flash so far, of all caches together. A call that leaves the number as it was
/// had its answer from memory; so a program can tell how long its own gets took apart for both, at no cost to those that memory
/// answers. A future's call is of the thread that polled it first;
/// of several keys that are got at once, each counts.
///
/// ```
/// use kilambosetry::{flash_waits, HybridCache, Options};
///
/// let cache = HybridCache::in_memory(&Options::default())?;
/// let before = flash_waits();
/// cache.get(b"user:7")?;
/// assert_eq!(flash_waits(), before); // there is no flash to be asked
/// # Ok::<(), Box<dyn std::error::Error>>(())
/// ```
#[must_use]
pub fn flash_waits() -> u64 {
    WAITS.get()
}

/// A call of this thread begins to wait for flash.
pub(crate) fn count() {
    WAITS.set(WAITS.get().wrapping_add(1));
}
