//! The items of the cache, found by anyone, and changed under the lock of their key.
use crate::bars::Bars;
use crate::beside::Beside;
use crate::finds::{Asked, Found};
use crate::head::{Head, Item, HEAD, LONGEST_VALUE};
use crate::locks::{KeyLock, KeyLocks};
use crate::moments::{self, Expiry};
use crate::within::{within, TimeIsUp};
use kilambosetry::{Began, Error, GetAsync, HybridCache, Refused};
use std::io;
use std::sync::atomic::{
    AtomicU32, AtomicU64,
    Ordering::{Relaxed, SeqCst},
};
use std::sync::{Mutex, PoisonError};
use std::task::Context;
use std::time::{Duration, SystemTime, UNIX_EPOCH};
use tokio::task::JoinHandle;

// How often what frees a key is tried again where the cache is out of memory, and after how long.
const TRIES: usize = 100;
const PAUSE: Duration = Duration::from_millis(5);

/// The cache, with what makes items of its values.
#[derive(Debug)]
pub struct Items {
    cache: HybridCache,
    locks: KeyLocks,
    // the unique of the last change
    last: AtomicU64,
    flushed: Flushed,
    bars: Bars,
    // how long a find waits for flash
    patience: Duration,
    // the longest value that flash may have; none, where there is no flash
    longest_on_flash: Option<usize>,
    // finds that met an item that was over
    found_flushed: AtomicU64,
    found_expired: AtomicU64,
}

// What `flush_all` ended.
#[derive(Debug, Default)]
struct Flushed {
    // items of earlier changes are gone
    before: AtomicU64,
    // the second in which all items end; 0: there is none
    due: AtomicU32,
    turn: Mutex<()>,
}

/// How long a command's finds wait for flash: once it didn't answer one in time, none of the others waits.
#[derive(Debug)]
pub struct Wait(Duration);

impl Wait {
    /// Whether none waits any more.
    #[must_use]
    pub fn is_over(&self) -> bool {
        self.0.is_zero()
    }

    /// What the get is answered in time; else it is given up.
    pub async fn answer_of(&mut self, get: GetAsync<'_>) -> Found {
        let answer = within(self.0, get).await;
        answer.unwrap_or_else(|TimeIsUp| {
            self.0 = Duration::ZERO;
            Err(Error::TimedOut)
        })
    }
}

/// Why an item wasn't stored. What its key had is gone.
#[derive(Clone, Copy, Debug, PartialEq, Eq)]
pub enum NotKept {
    TooLarge,
    NoMemory,
}

impl Items {
    /// The items of an empty cache, or of one that has what an earlier server kept. A find waits for flash so long at most, and is a
    /// miss then.
    #[must_use]
    pub fn new(cache: HybridCache, patience: Duration) -> Items {
        let before = kept(&cache);
        // A unique of this run is greater than those of earlier ones: a lease of a server that was started anew meanwhile is none.
        let started = SystemTime::now().duration_since(UNIX_EPOCH).map_or(0, |time| time.as_nanos() as u64);
        let last = AtomicU64::new(started.max(before.last));
        let flushed = Flushed { before: before.before.into(), due: before.due.into(), ..Flushed::default() };
        let bars = Bars::default();
        let (found_flushed, found_expired) = (AtomicU64::new(0), AtomicU64::new(0));
        let longest = |admitted| usize::try_from(admitted).unwrap_or(usize::MAX).min(HEAD + LONGEST_VALUE);
        let longest_on_flash = cache.numbers().flash.map(|flash| longest(flash.admit_max));
        let locks = KeyLocks::default();
        Items { cache, locks, last, flushed, bars, patience, longest_on_flash, found_flushed, found_expired }
    }

    #[must_use]
    pub fn cache(&self) -> &HybridCache {
        &self.cache
    }

    // A number that no change had before.
    fn next_unique(&self) -> u64 {
        self.last.fetch_add(1, SeqCst) + 1
    }

    /// Waits until nobody else changes the key. Where there is no memory for that, the key keeps what it has, and nobody may be
    /// told otherwise: the error ends the connection that wants the change.
    pub async fn change<'a>(&'a self, key: &'a [u8]) -> io::Result<Change<'a>> {
        let lock = self.locks.lock(key).await.map_err(|_| io::ErrorKind::OutOfMemory)?;
        self.first_kept(moments::now()); // (a flush that is due comes before it)
        Ok(Change { items: self, key, unique: self.next_unique(), lock })
    }

    /// Finds that met an item that was flushed.
    #[must_use]
    pub fn found_flushed(&self) -> u64 {
        self.found_flushed.load(Relaxed)
    }

    /// Finds that met an item whose time was over, in the cache or here.
    #[must_use]
    pub fn found_expired(&self) -> u64 {
        self.cache.stats().misses_expired + self.found_expired.load(Relaxed)
    }

    /// How many bars stand.
    #[must_use]
    pub fn bars(&self) -> usize {
        self.bars.count()
    }

    /// How a command's finds wait for flash.
    #[must_use]
    pub fn wait(&self) -> Wait {
        Wait(self.patience)
    }

    /// The item under the key. What the cache can't tell in time, or since it is out of memory, is a miss.
    pub async fn find(&self, key: &[u8]) -> Option<Item> {
        self.find_within(key, &mut self.wait()).await
    }

    /// The same for one of the keys of a command.
    pub async fn find_within(&self, key: &[u8], wait: &mut Wait) -> Option<Item> {
        if self.locks.is_hidden(key) {
            return None;
        }
        let found = wait.answer_of(self.cache.get_async(key)).await;
        self.item_of(found)
    }

    /// Asks for the key, and waits for nothing.
    pub fn ask<'a>(&'a self, key: &'a [u8], context: &mut Context<'_>) -> Asked<'a> {
        if self.locks.is_hidden(key) {
            return Asked::Came(Ok(None));
        }
        Asked::of(self.cache.get_async(key), context)
    }

    /// The longest value that flash may have; none, where there is no flash.
    #[must_use]
    pub fn longest_on_flash(&self) -> Option<usize> {
        self.longest_on_flash
    }

    /// The item that was found, unless it is over.
    #[must_use]
    pub fn item_of(&self, found: Found) -> Option<Item> {
        let item = Item::read(found.ok()??.into_vec())?;
        let now = moments::now();
        if item.head.unique < self.first_kept(now) {
            self.found_flushed.fetch_add(1, Relaxed);
            return None;
        }
        if item.head.expiry.is_past(now) {
            self.found_expired.fetch_add(1, Relaxed);
            return None;
        }
        Some(item)
    }

    // Items of earlier changes were flushed.
    fn first_kept(&self, now: u32) -> u64 {
        if is_due(self.flushed.due.load(SeqCst), now) {
            let _turn = self.flushed.turn.lock().unwrap_or_else(PoisonError::into_inner);
            if is_due(self.flushed.due.load(SeqCst), now) {
                self.end_all();
            }
        }
        self.flushed.before.load(SeqCst)
    }

    // Whose unique is a later one finds nothing that is flushed: until that is told, nothing is found at all.
    fn end_all(&self) {
        self.flushed.before.store(u64::MAX, SeqCst);
        self.flushed.before.store(self.next_unique(), SeqCst);
        self.flushed.due.store(0, SeqCst);
    }

    /// What the next server is to know of the items, where they are kept. No command is under way any more. Keys whose rows clients
    /// are changing, and those that are hidden, are deleted: no later server knows of that.
    pub fn end(&self) -> Beside {
        self.bars.each(|key| self.cache.invalidate(key));
        self.locks.each_hidden(|key| self.cache.invalidate(key));
        let _turn = self.flushed.turn.lock().unwrap_or_else(PoisonError::into_inner);
        Beside {
            before: self.flushed.before.load(SeqCst),
            due: self.flushed.due.load(SeqCst),
            last: self.last.load(SeqCst),
        }
    }

    /// Ends all items, now or in a moment that comes. The last call counts.
    pub fn flush(&self, when: Expiry) {
        self.first_kept(moments::now());
        let _turn = self.flushed.turn.lock().unwrap_or_else(PoisonError::into_inner);
        match when {
            Expiry::At(second) if second > moments::now() => self.flushed.due.store(second, SeqCst),
            _ => self.end_all(),
        }
    }
}

// What an earlier server knew of the items that it kept. Where it says nothing of them, none is to be found.
fn kept(cache: &HybridCache) -> Beside {
    let Began::Kept(kept) = cache.kept() else { return Beside::default() };
    Beside::read(&kept.beside).unwrap_or_else(|| {
        cache.clear();
        Beside::default()
    })
}

fn is_due(second: u32, now: u32) -> bool {
    second != 0 && second <= now
}

/// A key that nobody else changes as long as this is held.
#[derive(Debug)]
pub struct Change<'a> {
    items: &'a Items,
    key: &'a [u8],
    // taken before anything is found, so that a flush that isn't seen by then is a later one
    unique: u64,
    lock: KeyLock<'a>,
}

impl Change<'_> {
    /// The item under the key.
    pub async fn find(&self) -> Option<Item> {
        self.items.find(self.key).await
    }

    /// The same for one of the keys of a command.
    pub async fn find_within(&self, wait: &mut Wait) -> Option<Item> {
        self.items.find_within(self.key, wait).await
    }

    /// The head of an item that is stored now.
    pub fn new_head(&self, flags: u32, expiry: Expiry) -> Head {
        Head { unique: self.unique, expiry, used: moments::now(), flags, ..Head::default() }
    }

    /// Its number, which no change had before.
    #[must_use]
    pub fn unique(&self) -> u64 {
        self.unique
    }

    /// Whether a client is changing the key's row.
    #[must_use]
    pub fn is_barred(&self) -> bool {
        self.items.bars.stands(self.key)
    }

    /// Sets a bar, which `limit` ends by itself: whether there was room for it.
    #[must_use]
    pub fn bar(&self, limit: JoinHandle<()>) -> bool {
        self.items.bars.raise(self.key, self.unique, limit)
    }

    /// Ends the bar of this number, if it stands.
    pub fn end_bar(&self, number: u64) {
        self.items.bars.lower(self.key, number);
    }

    /// Stores the item. Where it can't be stored, the key has none any more: so nothing older is found.
    pub async fn store(&self, item: &mut Item) -> Result<(), NotKept> {
        let seconds = match item.head.expiry.left(moments::now()) {
            Some(0) => return self.remove().await,
            left => left.unwrap_or(0),
        };
        let Err(error) = self.items.cache.set(self.key, item.to_store(), seconds) else {
            self.lock.show();
            return Ok(());
        };
        self.remove().await?;
        Err(match error {
            Error::Refused(Refused::VALUE_TOO_LONG | Refused::NO_ROOM) => NotKept::TooLarge,
            _ => NotKept::NoMemory,
        })
    }

    /// Takes the key out of the cache, from memory and flash. Where the cache is out of memory even for that, it is tried for
    /// half a second, and then refused: the key is a miss from then on, until it is stored or taken out.
    pub async fn remove(&self) -> Result<(), NotKept> {
        for _ in 0..TRIES {
            if self.items.cache.delete(self.key).is_ok() {
                self.lock.show();
                return Ok(());
            }
            tokio::time::sleep(PAUSE).await;
        }
        self.lock.hide();
        Err(NotKept::NoMemory)
    }
}
