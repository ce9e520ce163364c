use crate::calls::Answer;
use crate::checked::{Checked, PageDevice};
use crate::engine::{Copied, Engine};
use crate::future::GetAsync;
use crate::loads::after;
use crate::numbers::Numbers;
use crate::save::Keeper;
use crate::shards::{Locked, Shards, State, ABSENT};
use crate::shared::{boxed, Shared};
use crate::{
    resume, Added, Began, Cause, Closed, Error, Found, Held, Keep, NotKept, OpenError, Options, PageFile, Refused,
    Reply, Saved, Stats, Value,
};
use std::cell::Cell;
use std::path::Path;
use std::sync::atomic::Ordering::Relaxed;
use std::sync::{Mutex, OnceLock, PoisonError};
use std::thread::{self, JoinHandle};
use std::time::{Duration, Instant};
use std::{fmt, process};

/// A cache in memory with flash behind it, for the threads of a service. A clone is another handle to the same cache.
///
/// ```
/// use kilambosetry::{HybridCache, Options};
/// # let path = std::env::temp_dir().join(format!("hybrid-{}", std::process::id()));
///
/// let options = Options { memory: 64_000_000, flash: 200_000_000, mean_value: 400, ..Options::default() };
/// let cache = HybridCache::open(&path, &options)?;
/// cache.set(b"user:7", b"Ada", 3600)?;
/// assert_eq!(cache.get(b"user:7")?.as_deref(), Some(&b"Ada"[..]));
/// cache.delete(b"user:7")?;
/// assert!(cache.get(b"user:7")?.is_none());
/// # cache.close();
/// # std::fs::remove_file(path)?;
/// # Ok::<(), Box<dyn std::error::Error>>(())
/// ```
///
/// It is cut into shards, and a call locks its key's shard alone. Evicted items are written to flash by threads of its own. A
/// get that finds its value on flash alone makes the read itself, unless another thread does so already, with no lock held. A
/// page that comes back otherwise than it was written, and one that can't be read, is a miss. Nothing outlasts the cache, and it
/// begins empty, whatever the file has, unless it is to be kept ([`Options::keep`]).
///
/// Before a database read by [`get_or_load`](HybridCache::get_or_load): of many threads that miss a key one loads its row, and a
/// row that was loaded before a change of its key is never stored after it. Rows are changed by [`change`](HybridCache::change).
/// What is loaded otherwise, and stored by `set`, may be older than what was deleted meanwhile.
#[derive(Clone)]
pub struct HybridCache {
    inner: Shared<Inner>,
}

// What all handles share. The workers end with it.
struct Inner {
    shards: Shared<Shards>,
    numbers: Numbers,
    workers: Workers,
    keeps_time: OnceLock<bool>,
    // the one that has the threads
    process: u32,
    began: Began,
    keeper: Option<Keeper>,
    // what was done and had as it was closed, where it was kept
    ended: OnceLock<Stats>,
}

impl HybridCache {
    /// A cache with its flash in this file, or on this block device: an empty one, but for what was kept ([`Options::keep`]). A file is made where there is none, readable and
    /// writable for its owner alone. It is locked as long as the cache is open. What has anything and isn't ours is refused, and
    /// left alone ([`Options::overwrite`]); so is a block device that is mounted, or otherwise in use. What the cache has lies
    /// there in the clear, also once it is closed ([`Options::unnamed`]).
    pub fn open(path: impl AsRef<Path>, options: &Options) -> Result<HybridCache, OpenError> {
        let numbers = options.numbers()?;
        let page = numbers.flash.map_or(0, |flash| flash.page);
        HybridCache::make(numbers, options, || {
            let file = PageFile::open(path.as_ref(), numbers.pages(), page, options)?;
            Ok(Some(boxed(file)?))
        })
    }

    /// The same with its flash on a device of your own, which has as many pages as `options.numbers()` tells.
    pub fn over(device: impl PageDevice + 'static, options: &Options) -> Result<HybridCache, OpenError> {
        HybridCache::make(options.numbers()?, options, || Ok(Some(boxed(device)?)))
    }

    /// An empty cache without flash, and without threads: what is evicted is forgotten.
    pub fn in_memory(options: &Options) -> Result<HybridCache, OpenError> {
        HybridCache::make(options.numbers_in_memory()?, options, || Ok(None))
    }

    // The device is opened once the numbers are known to be right.
    fn make(
        numbers: Numbers,
        options: &Options,
        open: impl FnOnce() -> Result<Option<Box<dyn PageDevice>>, OpenError>,
    ) -> Result<HybridCache, OpenError> {
        let mut shards = Shards::new(&numbers, options)?;
        resume::check(options, numbers.flash.is_some())?;
        let keeper = options.keep.as_ref().map(Keep::try_clone).transpose()?.map(Keeper::new);
        let clocked = shards.clocked.clone();
        shards.device = open()?.map(|device| Checked::new(device, numbers.pages(), clocked)).transpose()?;
        let began = resume::begin(&mut shards, options)?;
        let has_flash = shards.device.is_some();
        let inner = Inner {
            shards: Shared::new(shards)?,
            numbers,
            workers: Workers::default(),
            keeps_time: OnceLock::new(),
            process: process::id(),
            began,
            keeper,
            ended: OnceLock::new(),
        };
        let cache = HybridCache { inner: Shared::new(inner)? };
        if has_flash {
            // (where one can't be started, those that were are ended as the cache is dropped)
            (0..options.writers).try_for_each(|_| cache.inner.start("cache-writer", Shards::write_out))?;
            (0..options.fillers).try_for_each(|_| cache.inner.start("cache-filler", Shards::fill))?;
        }
        Ok(cache)
    }

    /// The value under the key. Where flash alone may have it, the thread waits until it was looked for there.
    pub fn get(&self, key: &[u8]) -> Result<Option<Value>, Error> {
        self.shards().value_of_any(self.find(key, None)?)
    }

    /// The same for so long at most, and then [`Error::TimedOut`]: the call is given up. A filler makes its read, unless nobody has
    /// to wait for that.
    pub fn get_timeout(&self, key: &[u8], limit: Duration) -> Result<Option<Value>, Error> {
        self.shards().value_of_any(self.find(key, Some(after(limit)))?)
    }

    /// As [`get`](HybridCache::get), with no copy of the value.
    pub fn read(&self, key: &[u8]) -> Result<Option<Held>, Error> {
        Ok(self.shards().row_of(self.find(key, None)?))
    }

    /// As [`get_timeout`](HybridCache::get_timeout), with no copy of the value.
    pub fn read_timeout(&self, key: &[u8], limit: Duration) -> Result<Option<Held>, Error> {
        Ok(self.shards().row_of(self.find(key, Some(after(limit)))?))
    }

    /// The same as a future, for any executor: a filler makes its read, and wakes the task, unless nobody has to wait for that
    /// ([`PageDevice::read_now`]). Where the future is dropped, the call is given up. The call begins when the future is polled
    /// first.
    pub fn get_async<'a>(&'a self, key: &'a [u8]) -> GetAsync<'a> {
        GetAsync::new(self, key)
    }

    fn find(&self, key: &[u8], until: Option<Instant>) -> Result<Option<Held>, Error> {
        let (shards, shard) = self.locate(key);
        let begun = shards.begin_get();
        let mut state = shards.enter(shard)?;
        let found = match state.get(key)? {
            Found::Hit(held) => Some(held),
            Found::Miss => None,
            Found::Waits(call) => return Ok(held_of(shards.answer_of(shard, state, (key, call), until)?)),
        };
        drop(state);
        shards.end_get(begun);
        Ok(found)
    }

    /// Copies the value under the key to the head of `out`, and answers its length. Where that is more than `out` has, nothing
    /// is copied. It waits as `get` does.
    pub fn get_into(&self, key: &[u8], out: &mut [u8]) -> Result<Option<usize>, Error> {
        let found = self.copy_out(key, out)?;
        if found != Some(ABSENT) {
            return Ok(found);
        }
        // (it may say that there is no such row, which isn't shown)
        match out.get_mut(..ABSENT) {
            Some(copied) if !self.shards().is_absent(copied) => Ok(found),
            Some(copied) => {
                copied.fill(0);
                Ok(None)
            }
            None => Ok(self.get(key)?.map(|value| value.len())),
        }
    }

    fn copy_out(&self, key: &[u8], out: &mut [u8]) -> Result<Option<usize>, Error> {
        let (shards, shard) = self.locate(key);
        let begun = shards.begin_get();
        let mut state = shards.enter(shard)?;
        let found = match state.get_into(key, out)? {
            Copied::Hit(length) => Some(length),
            Copied::Miss => None,
            Copied::Waits(call) => {
                let held = held_of(shards.fill_for(shard, state, call)?);
                return Ok(held.map(|held| copy(held, out)));
            }
        };
        drop(state);
        shards.end_get(begun);
        Ok(found)
    }

    /// Stores a copy of the value under the key, in place of what the key has, for `ttl` seconds from now (0: for good). The
    /// least recently used items are evicted to make room, and go to flash. Where it is refused, the key has what it had.
    ///
    /// A row of a database isn't stored by this, nor by `add`, but by who loads it: two who set a key may do so in another order
    /// than they committed ([`change`](HybridCache::change), [`get_or_load`](HybridCache::get_or_load)).
    pub fn set(&self, key: &[u8], value: &[u8], ttl: u32) -> Result<(), Error> {
        self.step(key, |state, pool| {
            state.engine.now().set(pool, key, value, ttl)?;
            state.end_load(key);
            Ok(())
        })
    }

    // A step of the key's shard, with the key's pool: it may answer calls and make work.
    #[inline]
    fn step<T>(&self, key: &[u8], step: impl FnOnce(&mut State, u8) -> Result<T, Refused>) -> Result<T, Error> {
        let (shards, shard) = self.locate(key);
        let mut state = shards.enter(shard)?;
        let done = step(&mut state, shards.pool_of(key));
        shards.leave(shard, state);
        Ok(done?)
    }

    /// Stores it where the key has no unexpired value, and answers whether it did. Where flash alone may have one, the thread
    /// waits until it was looked for there. Don't store by it what was loaded: it may be stored behind a `delete` that came while
    /// it waited.
    pub fn add(&self, key: &[u8], value: &[u8], ttl: u32) -> Result<bool, Error> {
        loop {
            match self.try_add(key, value, ttl) {
                Ok(Reply::Miss) => {} // (the cache was cleared while it waited, and has nothing of it)
                Err(Error::Refused(Refused::EXISTS)) => return Ok(false),
                added => return added.map(|_| true),
            }
        }
    }

    fn try_add(&self, key: &[u8], value: &[u8], ttl: u32) -> Answer {
        let (shards, shard) = self.locate(key);
        let mut state = shards.enter(shard)?;
        let added = state.add(shards.pool_of(key), key, value, ttl);
        if added.is_ok() {
            state.end_load(key);
        }
        match added {
            Ok(Added::Waits(call)) => shards.fill_for_add(shard, state, call),
            stored => {
                shards.leave(shard, state);
                Ok(stored.map(|_| Reply::Stored)?)
            }
        }
    }

    /// Takes the key out of the cache, from memory and flash, and answers whether there was an item in memory. Where it is refused
    /// for want of memory, the key still has what it had: try it again.
    pub fn delete(&self, key: &[u8]) -> Result<bool, Error> {
        self.step(key, |state, _| state.delete(key, Cause::Deleted))
    }

    /// Waits until each shard had nothing that waits to be written to flash, at some moment since.
    pub fn flush(&self) -> Result<(), Error> {
        let shards = &self.inner.shards;
        if shards.device.is_none() {
            return Ok(());
        }
        (0..shards.len()).try_for_each(|shard| shards.flush(shard))
    }

    /// What was done so far, and what the cache has.
    #[must_use]
    pub fn stats(&self) -> Stats {
        self.inner.ended.get().copied().unwrap_or_else(|| self.stats_now())
    }

    fn stats_now(&self) -> Stats {
        let Inner { shards, numbers, .. } = &*self.inner;
        let clears = shards.clears.load(Relaxed);
        let mut stats = Stats { lock_waits: shards.lock_waits(), clears, ..Stats::default() };
        for shard in 0..shards.len() {
            add_shard(&mut stats, &mut shards.lock(shard), shards);
        }
        if let Some(device) = &shards.device {
            stats.device = device.counts();
            stats.flash_bytes = stats.device.pages * numbers.flash.map_or(0, |flash| flash.page);
            stats.flash_limit_bytes = numbers.flash_bytes();
        }
        stats
    }

    /// What the options came to.
    #[must_use]
    pub fn numbers(&self) -> Numbers {
        self.inner.numbers
    }

    /// What it began with.
    #[must_use]
    pub fn kept(&self) -> &Began {
        &self.inner.began
    }

    /// Ends the cache for all its handles: calls that wait, and later ones, are [`Error::Closed`]. It waits for the operations
    /// of the device that are under way, and answers what was done, and whether what it had is kept ([`Options::keep`]): then calls
    /// that wait have their answers first. What isn't kept, and isn't written yet, never is. Where another handle closes it already,
    /// this waits until that is over.
    ///
    /// A cache that is dropped instead keeps nothing.
    pub fn close(self) -> Closed {
        self.close_with(&[])
    }

    /// The same, where these bytes are kept beside what the cache has, up to 65,536, for who opens the next one
    /// ([`WasKept::beside`](crate::WasKept)).
    pub fn close_with(self, beside: &[u8]) -> Closed {
        let kept = self.close_and_keep(beside);
        self.inner.end();
        Closed { stats: self.stats(), kept }
    }

    fn close_and_keep(&self, beside: &[u8]) -> Result<Saved, NotKept> {
        let Inner { shards, keeper, process, ended, .. } = &*self.inner;
        let keeper = keeper.as_ref().filter(|_| *process == process::id()).ok_or(NotKept::NotAsked)?;
        // (one of the cache's own threads may be what is waited for)
        let _closing = keeper.begin(!WORKS.get()).ok_or(NotKept::Elsewhere)?;
        let within = keeper.keep.close_within;
        let (pushed, rested, until) = (after(within / 4), after(within / 2), after(within));
        shards.rest(keeper.keep.what, pushed, rested);
        shards.close();
        let _ = ended.set(self.stats_now());
        keeper.save(shards, beside, until)
    }

    // Something was changed that the cache can't be told any more, since it is closed: so nothing is kept of it.
    pub(crate) fn keep_nothing(&self) {
        if let Some(keeper) = &self.inner.keeper {
            keeper.forget(&self.inner.shards);
        }
    }

    /// The shard that the key is of, from 0. Calls on keys of one shard wait for each other, and for no others.
    #[must_use]
    pub fn shard_of(&self, key: &[u8]) -> u16 {
        self.shards().of(key) as u16
    }

    #[inline]
    fn locate(&self, key: &[u8]) -> (&Shards, usize) {
        let shards = &*self.inner.shards;
        (shards, shards.of(key))
    }

    pub(crate) fn shards(&self) -> &Shards {
        &self.inner.shards
    }

    // Frees these by a thread of its own, since that takes long where they have many items.
    pub(crate) fn free(&self, engines: Vec<Engine>) {
        let _ = self.inner.workers.start("cache-clear", || drop(engines)); // (without a thread they are dropped here)
    }

    // Whether tasks are woken whose loads take too long: the first that waits begins a thread for that.
    pub(crate) fn keeps_time(&self) -> bool {
        let begin = || self.inner.start("cache-timer", Shards::keep_time).is_ok();
        *self.inner.keeps_time.get_or_init(begin)
    }
}

// What a get that waited found.
pub(crate) fn held_of(reply: Reply) -> Option<Held> {
    match reply {
        Reply::Hit(held) => Some(held),
        Reply::Stored | Reply::Miss => None,
    }
}

// Copies the value, where there is room for it, and answers its length.
fn copy(mut held: Held, out: &mut [u8]) -> usize {
    let length = held.length();
    if length <= out.len() {
        held.copy(0, out);
    }
    length
}

// Adds what a shard did, and has.
fn add_shard(stats: &mut Stats, state: &mut Locked<'_>, shards: &Shards) {
    let counts = state.engine.counts();
    let from_flash = state.calls.from_flash;
    stats.hits_from_memory += counts.hits.saturating_sub(from_flash);
    stats.hits_from_flash += from_flash;
    let (expired, fault) = (state.misses_expired, state.calls.misses_by_fault);
    stats.misses_absent += counts.misses.saturating_sub(expired + fault) + state.calls.misses_by_clear;
    stats.misses_expired += expired;
    stats.misses_by_fault += fault;
    stats.stored += counts.stored;
    stats.deletes += counts.removes;
    stats.losses += state.engine.losses();
    stats.cleared_items += state.engine.cleared();
    stats.loads += state.loads.begun;
    stats.waits_for_loads += state.loads.waited;
    stats.stale_stores += state.loads.stale;
    stats.refused_stores += state.loads.refused;
    stats.waiting += state.calls.len() as u64;
    stats.given_up += state.calls.given_up;
    stats.queue_length += state.engine.now().queue_length();
    stats.shards_behind += u64::from(shards.device.is_some() && state.engine.is_to_be_written());
    for pool in 0..shards.pools() {
        let usage = state.engine.now().usage(pool).unwrap_or_default();
        stats.memory_items += usage.items;
        stats.memory_bytes += usage.bytes;
        stats.memory_limit_bytes += usage.limit_bytes;
    }
}

// The threads of a cache.
#[derive(Default)]
struct Workers {
    running: Mutex<Vec<JoinHandle<()>>>,
    // those that were running are being waited for
    joining: Mutex<()>,
}

thread_local! {
    // whether this thread is one of a cache's own
    static WORKS: Cell<bool> = const { Cell::new(false) };
}

impl Workers {
    // What is kept of it has its place before it is started. (What the standard library allocates for a thread ends the process where
    // it is refused.)
    fn start(&self, name: &str, work: impl FnOnce() + Send + 'static) -> Result<(), OpenError> {
        let works = move || {
            WORKS.set(true);
            work();
        };
        let mut running = self.running.lock().unwrap_or_else(PoisonError::into_inner);
        running.retain(|worker| !worker.is_finished());
        running.try_reserve(1).map_err(|_| OpenError::NoMemory)?;
        running.push(thread::Builder::new().name(named(name)?).spawn(works)?);
        Ok(())
    }

    // Waits until all have ended; a worker, which may close a cache in a task that it wakes, doesn't, since another may wait for it.
    fn join(&self) {
        if WORKS.get() {
            return;
        }
        let _joining = self.joining.lock().unwrap_or_else(PoisonError::into_inner);
        let ended = std::mem::take(&mut *self.running.lock().unwrap_or_else(PoisonError::into_inner));
        ended.into_iter().for_each(|worker| drop(worker.join()));
    }
}

// A thread's name, with a place for the zero that ends it.
fn named(name: &str) -> Result<String, OpenError> {
    let mut named = String::new();
    named.try_reserve_exact(name.len() + 1).map_err(|_| OpenError::NoMemory)?;
    named.push_str(name);
    Ok(named)
}

impl Inner {
    fn start(&self, name: &str, work: fn(&Shards)) -> Result<(), OpenError> {
        let shards = self.shards.clone();
        self.workers.start(name, move || work(&shards))
    }

    fn end(&self) {
        // (in the child of a `fork` the threads aren't there, and locks may be held for good)
        if self.process == process::id() {
            self.shards.close();
            self.workers.join();
        }
    }
}

impl Drop for Inner {
    fn drop(&mut self) {
        self.end();
    }
}

impl fmt::Debug for HybridCache {
    fn fmt(&self, f: &mut fmt::Formatter<'_>) -> fmt::Result {
        f.debug_struct("HybridCache").field("numbers", &self.inner.numbers).finish_non_exhaustive()
    }
}
