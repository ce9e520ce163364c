use crate::held::copied;
use crate::shared::Shared;
use crate::{HybridCache, Losses, Refused};
use std::collections::VecDeque;
use std::fmt;
use std::sync::{Condvar, Mutex, MutexGuard, PoisonError};
use std::time::{Duration, Instant};

/// Why a key is gone, or some keys are.
///
/// Of the first four the key is told, since a call of the cache has it. Of the others only how many there are: the library counts them
/// by their reasons, as [`Losses`] has them, and tells no key to a caller in Rust or C.
#[derive(Clone, Copy, Debug, PartialEq, Eq, Hash)]
#[non_exhaustive]
pub enum Cause {
    /// It was deleted, or invalidated, whether or not there was an item.
    Deleted,
    /// Its row was changed.
    Changed,
    /// A get found that its time to live is over, of the item that memory has.
    Expired,
    /// A get found that a page which may have it can't be read, or came back otherwise than written.
    Unread,
    /// All was cleared, or all of a shard: so many items in memory. How many flash had isn't known.
    Cleared,
    /// As [`Losses::no_flash`].
    NoFlash,
    /// As [`Losses::tombstone`].
    Tombstone,
    /// As [`Losses::not_admitted`].
    NotAdmitted,
    /// As [`Losses::too_large`].
    TooLarge,
    /// As [`Losses::queue_full`].
    QueueFull,
    /// As [`Losses::expired`].
    EvictedExpired,
    /// As [`Losses::bucket_full`].
    BucketFull,
    /// As [`Losses::reclaimed`].
    Reclaimed,
    /// As [`Losses::no_clean_region`].
    NoCleanRegion,
    /// As [`Losses::collision`].
    Collision,
    /// As [`Losses::fault`].
    Fault,
}

/// A key that is gone, or so many of which the keys aren't known.
#[derive(Clone, Debug, PartialEq, Eq)]
#[non_exhaustive]
pub struct Gone {
    /// The key, of a namespace with its name before it; none, where it isn't told.
    pub key: Option<Vec<u8>>,
    /// Why.
    pub cause: Cause,
    /// How many.
    pub count: u64,
}

/// Who hears what a cache forgets, and why: [`HybridCache::listen`]. As an iterator it waits for the next, until the cache is closed
/// or all its handles are dropped. Where it is dropped, nothing is noted any more.
#[must_use = "where it is dropped, nothing is noted"]
pub struct Listener {
    queue: Shared<Queue>,
}

impl HybridCache {
    /// Has what is forgotten from now on noted for a listener, with its cause, and its key where that is known ([`Cause`]). So many notes
    /// wait for it at most: what comes when there is no room, or no memory, is [`missed`](Listener::missed). A cache has one listener:
    /// one of before hears no more. What is heard costs each call that forgets something a note, and each that may have evicted
    /// something a look at the counts; without a listener nothing.
    ///
    /// ```
    /// use kilambosetry::{Cause, HybridCache, Options};
    ///
    /// let cache = HybridCache::in_memory(&Options::default())?;
    /// let listener = cache.listen(1000)?;
    /// cache.set(b"user:7", b"Ada", 3600)?;
    /// cache.delete(b"user:7")?;
    /// drop(cache); // (a thread would listen meanwhile)
    /// let gone: Vec<_> = listener.collect();
    /// assert_eq!((gone[0].key.as_deref(), gone[0].cause), (Some(&b"user:7"[..]), Cause::Deleted));
    /// # Ok::<(), Box<dyn std::error::Error>>(())
    /// ```
    pub fn listen(&self, room: usize) -> Result<Listener, Refused> {
        let queue = Shared::new(Queue::new(room)?)?;
        let shards = self.shards();
        for shard in 0..shards.len() {
            shards.lock(shard).hear(queue.clone());
        }
        // (where the cache is closed already, nothing is to come)
        if shards.lock(0).is_closed() {
            queue.end();
        }
        Ok(Listener { queue })
    }
}

impl Listener {
    /// The next one, if it comes within the limit.
    pub fn next_within(&mut self, limit: Duration) -> Option<Gone> {
        self.queue.next(Some(crate::loads::after(limit)))
    }

    /// Whether nothing comes any more: the cache is closed, or another listens, and all was heard.
    #[must_use]
    pub fn is_over(&self) -> bool {
        let notes = self.queue.lock();
        notes.is_over && notes.waiting.is_empty()
    }

    /// How many were forgotten of which there is no note, since there was no room for it.
    #[must_use]
    pub fn missed(&self) -> u64 {
        self.queue.lock().missed
    }
}

impl Iterator for Listener {
    type Item = Gone;

    fn next(&mut self) -> Option<Gone> {
        self.queue.next(None)
    }
}

impl Drop for Listener {
    fn drop(&mut self) {
        self.queue.end();
    }
}

impl fmt::Debug for Listener {
    fn fmt(&self, f: &mut fmt::Formatter<'_>) -> fmt::Result {
        f.debug_struct("Listener").field("missed", &self.missed()).finish_non_exhaustive()
    }
}

/// What waits to be heard.
pub(crate) struct Queue {
    notes: Mutex<Notes>,
    comes: Condvar,
    room: usize,
}

#[derive(Default)]
struct Notes {
    waiting: VecDeque<Gone>,
    missed: u64,
    is_over: bool,
}

impl Queue {
    fn new(room: usize) -> Result<Queue, Refused> {
        let mut waiting = VecDeque::new();
        waiting.try_reserve_exact(room).map_err(|_| Refused::NO_MEMORY)?;
        let notes = Mutex::new(Notes { waiting, ..Notes::default() });
        Ok(Queue { notes, comes: Condvar::new(), room })
    }

    fn lock(&self) -> MutexGuard<'_, Notes> {
        self.notes.lock().unwrap_or_else(PoisonError::into_inner)
    }

    /// Nothing is to come any more.
    pub fn end(&self) {
        self.lock().is_over = true;
        self.comes.notify_all();
    }

    // Notes that so many are gone.
    fn note(&self, key: Option<&[u8]>, cause: Cause, count: u64) {
        let mut notes = self.lock();
        let has_room = notes.waiting.len() < self.room;
        match key.map(copied).transpose() {
            Ok(key) if has_room => notes.waiting.push_back(Gone { key, cause, count }),
            _ => notes.missed += count,
        }
        drop(notes);
        self.comes.notify_one();
    }

    fn next(&self, until: Option<Instant>) -> Option<Gone> {
        let mut notes = self.lock();
        loop {
            if let Some(gone) = notes.waiting.pop_front() {
                return Some(gone);
            }
            let left = until.map(|until| until.saturating_duration_since(Instant::now()));
            if notes.is_over || left == Some(Duration::ZERO) {
                return None;
            }
            notes = match left {
                None => self.comes.wait(notes).unwrap_or_else(PoisonError::into_inner),
                Some(left) => self.comes.wait_timeout(notes, left).unwrap_or_else(PoisonError::into_inner).0,
            };
        }
    }
}

/// A shard's way to who listens, if somebody does.
#[derive(Default)]
pub(crate) struct Heard {
    queue: Option<Shared<Queue>>,
    // those that were told so far
    losses: Losses,
}

impl Heard {
    /// This one listens from now on, behind these losses.
    pub fn begin(&mut self, queue: Shared<Queue>, losses: Losses) {
        self.end();
        *self = Heard { queue: Some(queue), losses };
    }

    /// Nothing is heard any more.
    pub fn end(&mut self) {
        if let Some(queue) = self.queue.take() {
            queue.end();
        }
    }

    /// Whether somebody listens.
    #[inline]
    pub fn is_on(&self) -> bool {
        self.queue.is_some()
    }

    /// Notes that the key is gone.
    #[inline]
    pub fn note(&self, key: &[u8], cause: Cause) {
        if let Some(queue) = &self.queue {
            queue.note(Some(key), cause, 1);
        }
    }

    /// Notes that so many are gone.
    pub fn note_many(&self, cause: Cause, count: u64) {
        if let Some(queue) = self.queue.as_ref().filter(|_| count > 0) {
            queue.note(None, cause, count);
        }
    }

    /// Notes what was lost since.
    pub fn note_losses(&mut self, losses: Losses) {
        let before = std::mem::replace(&mut self.losses, losses);
        let counts = by_cause(&losses).into_iter().zip(by_cause(&before));
        counts.for_each(|((cause, count), (_, before))| self.note_many(cause, count.saturating_sub(before)));
    }
}

fn by_cause(it: &Losses) -> [(Cause, u64); 11] {
    [
        (Cause::NoFlash, it.no_flash),
        (Cause::Tombstone, it.tombstone),
        (Cause::NotAdmitted, it.not_admitted),
        (Cause::TooLarge, it.too_large),
        (Cause::QueueFull, it.queue_full),
        (Cause::EvictedExpired, it.expired),
        (Cause::BucketFull, it.bucket_full),
        (Cause::Reclaimed, it.reclaimed),
        (Cause::NoCleanRegion, it.no_clean_region),
        (Cause::Collision, it.collision),
        (Cause::Fault, it.fault),
    ]
}
