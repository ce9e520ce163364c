use crate::held::copied;
use crate::loads::after;
use crate::shards::PAUSE;
use crate::{Cause, Error, HybridCache, Refused};
use std::fmt;
use std::thread;

/// A change of a key's row that was begun: [`HybridCache::begin_change`]. As long as it is, nothing that was loaded is stored under
/// the key. Once it is dropped the key is deleted, whatever came of the commit.
///
/// ```
/// use kilambosetry::{HybridCache, Kept, Lookup, Options};
///
/// let cache = HybridCache::in_memory(&Options::default())?;
/// let change = cache.begin_change(b"user:7"); // before the commit
/// let Lookup::Miss(lease) = cache.get_or_lease(b"user:7")? else { panic!("it is empty") };
/// assert_eq!(lease.store(b"Ada", 3600)?, Kept::Stale); // it may be of before the commit, or of behind it
/// change.end(); // the commit was answered
/// # Ok::<(), Box<dyn std::error::Error>>(())
/// ```
#[must_use = "where it is dropped, it is over, and whether it was committed isn't known"]
pub struct Change {
    cache: HybridCache,
    shard: usize,
    // with the number of the change; none, where there is no bar: the cache can't have the key, or is closed
    key: Option<(Vec<u8>, u64)>,
    is_known: bool,
}

impl HybridCache {
    /// Changes a key's row by `commit`, and answers what that answers. However it ends, the key is deleted before this comes back,
    /// so that no get from then on finds an older row; where the delete is refused for want of memory, it is tried until it is
    /// answered. From before the commit to behind the delete nothing that was loaded is stored under the key.
    ///
    /// Where `commit` answers an error or panics, the row may have been changed all the same, or may still come to be: an answer
    /// may be lost. Then what is loaded isn't stored for [`unknown_for`](crate::Options::unknown_for) more, and once that is over
    /// the key is deleted again. (A commit that surely changed nothing, or surely did, is an `Ok` of its own.)
    ///
    /// A cache that is closed forgets all that it has kept, since the key can't be deleted there: close it once no change is begun
    /// any more. One that was begun before the close may end behind it.
    ///
    /// ```
    /// use kilambosetry::{HybridCache, Options};
    /// use std::io;
    ///
    /// let cache = HybridCache::in_memory(&Options::default())?;
    /// cache.get_or_load(b"user:7", 3600, || Ok::<_, io::Error>("Ada"))?;
    /// cache.change(b"user:7", || Ok::<_, io::Error>(()))?; // the commit
    /// assert!(cache.get(b"user:7")?.is_none());
    /// # Ok::<(), Box<dyn std::error::Error>>(())
    /// ```
    pub fn change<T, E>(&self, key: &[u8], commit: impl FnOnce() -> Result<T, E>) -> Result<T, E> {
        let change = self.begin_change(key);
        let done = commit()?; // (where it fails or panics, the change is dropped)
        change.end();
        Ok(done)
    }

    /// The same for who can't have a closure commit, as a task: begin it before the commit, and end it once that is answered. Where
    /// it is dropped instead, with its task, say, whether the row was changed isn't known. Where there is no memory for it, it
    /// waits for that.
    pub fn begin_change(&self, key: &[u8]) -> Change {
        let shard = self.shards().of(key);
        let mut change = Change { cache: self.clone(), shard, key: None, is_known: false };
        loop {
            match change.begin(key) {
                Err(Error::Refused(Refused::NO_MEMORY)) => thread::sleep(PAUSE),
                Err(Error::Closed) => {
                    self.keep_nothing(); // (what was kept would be older than this change)
                    return change;
                }
                _ => return change,
            }
        }
    }

    // Ends this change of the key: deletes the key, and lowers the bar. Answers whether the change wasn't over.
    pub(crate) fn end_change(&self, shard: usize, key: &[u8], number: u64, is_known: bool) -> bool {
        loop {
            match self.try_end_change(shard, key, number, is_known) {
                Err(Error::Refused(Refused::NO_MEMORY)) => thread::sleep(PAUSE),
                ended => return ended.unwrap_or(true), // (closed, the cache has nothing to be deleted)
            }
        }
    }

    fn try_end_change(&self, shard: usize, key: &[u8], number: u64, is_known: bool) -> Result<bool, Error> {
        let shards = self.shards();
        let until = (!is_known).then(|| after(shards.unknown_for));
        let mut state = shards.enter(shard)?;
        if !state.bars.has(key, number) {
            return Ok(false);
        }
        let lowered = state.delete(key, Cause::Changed).and_then(|_| state.bars.lower(key, number, until));
        shards.leave(shard, state);
        Ok(lowered.map(|()| true)?)
    }
}

impl Change {
    /// It is over, and it is known whether the row was changed. The key is deleted.
    pub fn end(mut self) {
        self.is_known = true;
    }

    fn begin(&mut self, key: &[u8]) -> Result<(), Error> {
        if !(1..=255).contains(&key.len()) {
            return Ok(());
        }
        let shards = self.cache.shards();
        let copy = copied(key)?;
        let mut state = shards.enter(self.shard)?;
        let raised = state.raise_bar(key);
        shards.leave(self.shard, state);
        self.key = Some((copy, raised?));
        Ok(())
    }

    // Leaves the bar to whoever ends the change of this number by `end_change`. None: there is no bar.
    pub(crate) fn leave(mut self) -> Option<u64> {
        self.key.take().map(|(_, number)| number)
    }
}

impl Drop for Change {
    fn drop(&mut self) {
        if let Some((key, number)) = self.key.take() {
            self.cache.end_change(self.shard, &key, number, self.is_known);
        }
    }
}

impl fmt::Debug for Change {
    fn fmt(&self, f: &mut fmt::Formatter<'_>) -> fmt::Result {
        write!(f, "Change(\"{}\")", self.key.as_ref().map_or(&[][..], |(key, _)| key).escape_ascii())
    }
}
