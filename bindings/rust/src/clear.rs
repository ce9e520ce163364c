use crate::shards::PAUSE;
use crate::{Error, HybridCache, Refused};
use std::sync::atomic::Ordering::Relaxed;
use std::thread;

// How often a delete is tried that is refused for want of memory, before the key's shard is cleared: for a tenth of a second.
const TRIES: usize = 20;

// So many items, and pages of them on flash, are freed by the caller, and more by a thread.
const FEW: u64 = 10_000;

impl HybridCache {
    /// Forgets all that the cache has, in memory and on flash, for who doesn't know what was changed: notices of changes were missed,
    /// say. Once this is back no get finds what was stored before it began, and what was loaded before that is neither stored nor
    /// handed to who came after; who waits for such a load looks again. Calls go on meanwhile, also those that wait for flash: they
    /// miss. A change that is under way stays so.
    ///
    /// How long it takes doesn't depend on how much the cache has: each shard gets an empty table of its flash in place of the one that
    /// it has. Many items are freed behind it by a thread, and take memory until then. It can't be refused: where there is no memory
    /// for the empty ones, the calls of those shards are refused until there is. What a cache that is closed has kept is forgotten.
    ///
    /// ```
    /// use kilambosetry::{HybridCache, Kept, Lookup, Options};
    ///
    /// let cache = HybridCache::in_memory(&Options::default())?;
    /// cache.set(b"user:7", b"Ada", 3600)?;
    /// let Lookup::Miss(lease) = cache.get_or_lease(b"user:8")? else { panic!("it isn't there") };
    /// cache.clear();
    /// assert!(cache.get(b"user:7")?.is_none());
    /// assert_eq!(lease.store(b"Grace", 3600)?, Kept::Stale); // it may have been loaded before
    /// # Ok::<(), Box<dyn std::error::Error>>(())
    /// ```
    pub fn clear(&self) {
        let shards = self.shards();
        let mut before = Vec::new();
        for shard in 0..shards.len() {
            let engine = shards.clear(shard);
            if engine.is_none() {
                self.keep_nothing(); // (it is closed, and may be kept)
            }
            // (where there is no memory to keep it, it is freed here)
            if before.try_reserve(1).is_ok() {
                before.extend(engine);
            }
        }
        shards.clears.fetch_add(1, Relaxed);
        let pages = shards.device.as_ref().map_or(0, |device| device.counts().pages);
        let items: u64 = before.iter_mut().map(|engine| engine.items(shards.pools())).sum();
        if items.saturating_add(pages) > FEW {
            self.free(before);
        }
    }

    /// Deletes the key, for a notice that its row was changed elsewhere: by another process, say. What was loaded before isn't stored
    /// after it. It can't be refused, but may wait: where there is no memory for the delete, it is tried for a tenth of a second, and
    /// then all of the key's shard is forgotten, as by [`clear`](HybridCache::clear). (A key that a cache can't have has nothing
    /// to be deleted. What a cache that is closed has kept is forgotten whole.)
    ///
    /// ```
    /// use kilambosetry::{HybridCache, Options};
    ///
    /// let cache = HybridCache::in_memory(&Options::default())?;
    /// cache.set(b"user:7", b"Ada", 3600)?;
    /// cache.invalidate(b"user:7");
    /// assert!(cache.get(b"user:7")?.is_none());
    /// # Ok::<(), Box<dyn std::error::Error>>(())
    /// ```
    pub fn invalidate(&self, key: &[u8]) {
        for _ in 0..TRIES {
            match self.delete(key) {
                Err(Error::Refused(Refused::NO_MEMORY)) => thread::sleep(PAUSE),
                Err(Error::Closed) => return self.keep_nothing(),
                _ => return,
            }
        }
        let shards = self.shards();
        if shards.clear(shards.of(key)).is_none() {
            self.keep_nothing();
        }
    }
}
