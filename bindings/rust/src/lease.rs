use crate::held::copied;
use crate::hybrid::held_of;
use crate::loads::{after, Begins, Outcome};
use crate::namespace::Head;
use crate::shards::{Locked, Shards};
use crate::times::TimedLoad;
use crate::told::Told;
use crate::{Error, Found, Held, HybridCache, Kept, LeaseAsync, LoadError, Loaded, Refused, Ticket, Value};
use std::fmt;
use std::time::{Duration, Instant};

/// What a get comes to that hands out a lease where it misses: [`HybridCache::get_or_lease`].
#[derive(Debug)]
#[must_use]
pub enum Lookup {
    /// The value under the key; or a row that another loaded meanwhile, and that isn't stored.
    Hit(Value),
    /// It is known that there is no such row ([`Lease::store_absent`]).
    Absent,
    /// There is none. Load it now, and store it by the lease.
    Miss(Lease),
    /// Another loaded it meanwhile, and its load failed: why. A load that was given up has failed too.
    Failed(String),
}

/// Who has a lease loads its key's value, and may store it unless the key was changed meanwhile. Others who miss the key wait
/// until the lease is used or dropped, or until `patience` is up. Where it is dropped, the load has failed.
///
/// ```
/// use kilambosetry::{HybridCache, Kept, Lookup, Options};
///
/// let cache = HybridCache::in_memory(&Options::default())?;
/// let Lookup::Miss(lease) = cache.get_or_lease(b"user:7")? else { panic!("it is empty") };
/// let row = b"Ada"; // from the database
/// cache.delete(b"user:7")?; // another has changed it
/// assert_eq!(lease.store(row, 3600)?, Kept::Stale);
/// assert!(cache.get(b"user:7")?.is_none());
/// # Ok::<(), Box<dyn std::error::Error>>(())
/// ```
#[must_use = "where it is dropped, its load has failed"]
pub struct Lease {
    pub(crate) cache: HybridCache,
    pub(crate) shard: usize,
    pub(crate) key: Vec<u8>,
    // none once the numbers are used up
    pub(crate) ticket: Option<Ticket>,
    // the number of the load; none, where nobody waits for it
    pub(crate) load: Option<u64>,
    // what stands before each row of a namespace
    pub(crate) head: Option<Head>,
    // where it is timed
    pub(crate) timed: Option<TimedLoad>,
}

/// A key that may be to be loaded. Where it is dropped before a lease has taken it over, nobody has begun to load it.
pub(crate) struct Begun<'a> {
    pub shards: &'a Shards,
    pub shard: usize,
    pub key: &'a [u8],
    load: Option<u64>,
}

impl<'a> Begun<'a> {
    pub fn new(shards: &'a Shards, key: &'a [u8]) -> Begun<'a> {
        Begun { shards, shard: shards.of(key), key, load: None }
    }

    /// Begins the load, unless another's is under way.
    pub fn begin(&mut self, state: &mut Locked<'_>) -> Begins {
        if self.load.is_some() {
            return Begins::Ours(self.load);
        }
        let begins = state.loads.begin(self.key, self.shards.patience);
        if let Begins::Ours(load) = begins {
            self.load = load;
        }
        begins
    }

    /// Ends it, if it is ours and no lease has taken it over. The shard's lock isn't held.
    pub fn end(&mut self, outcome: Outcome) {
        if let Some(load) = self.load.take() {
            self.shards.finish_load(self.shard, self.key, load, outcome);
        }
    }
}

impl Drop for Begun<'_> {
    fn drop(&mut self) {
        self.end(Outcome::NotBegun);
    }
}

/// What came of waiting for another's load.
pub(crate) enum Waited {
    /// The key is to be looked at again.
    Look {
        /// Whether somebody loaded: no second load is waited for.
        was_loaded: bool,
    },
    Came(Lookup),
}

impl HybridCache {
    /// The value under the key, or else what `load` answers, which is stored for `ttl` seconds (0: for good). Of many threads
    /// that miss a key at once one loads it, and the others wait for that. No lock is held while it loads.
    ///
    /// What was loaded before a change of the key (a `change`, a `set`, an `add` or a `delete`) is never stored after it. So where
    /// rows are changed by [`change`](HybridCache::change), no row is found that is older than what was committed before a change
    /// that was answered. Where the key was changed meanwhile, what was loaded is answered and not stored. So is what the cache
    /// can't store; and where it refuses the get, `load` is asked all the same.
    ///
    /// A caller waits for one load of another, and for no second one. What that load came to is handed to all who wait for it: the
    /// row, also one that can't be stored, or [`LoadError::Elsewhere`] where it failed, panicked or was given up. Where the key
    /// was changed meanwhile, or the load takes longer than [`patience`](crate::Options::patience), who waits loads by himself. A
    /// load that gets its own key waits for itself, for as long.
    ///
    /// ```
    /// use kilambosetry::{HybridCache, Options};
    /// use std::io;
    ///
    /// let cache = HybridCache::in_memory(&Options::default())?;
    /// let row = cache.get_or_load(b"user:7", 3600, || Ok::<_, io::Error>("Ada"))?; // from the database
    /// assert_eq!(&row[..], b"Ada");
    /// let again = cache.get_or_load(b"user:7", 3600, || Err::<&str, _>(io::Error::other("it isn't asked")))?;
    /// assert_eq!(&again[..], b"Ada");
    /// # Ok::<(), Box<dyn std::error::Error>>(())
    /// ```
    pub fn get_or_load<V: Into<Vec<u8>>, E: fmt::Display>(
        &self,
        key: &[u8],
        ttl: u32,
        load: impl FnOnce() -> Result<V, E>,
    ) -> Result<Value, LoadError<E>> {
        let lease = match self.look(key, false, None) {
            Ok(Lookup::Hit(value)) => return Ok(value),
            Ok(Lookup::Failed(why)) => return Err(LoadError::Elsewhere(why)),
            Ok(Lookup::Miss(lease)) => Some(lease),
            Ok(Lookup::Absent) | Err(_) => None,
        };
        let load = || load().map(|row| Loaded::row(row, ttl));
        Ok(Value::from(loaded(lease, load)?.row.unwrap_or_default()))
    }

    /// The same where there may be no such row, which is then kept too: `load` answers which it is, and for how long that is kept.
    ///
    /// ```
    /// use kilambosetry::{HybridCache, Loaded, Options};
    /// use std::io;
    ///
    /// let cache = HybridCache::in_memory(&Options::default())?;
    /// let nobody = || Ok::<_, io::Error>(Loaded::absent(10)); // the database has no such row
    /// assert_eq!(cache.find_or_load(b"user:8", nobody)?, None);
    /// let never = || Err::<Loaded, _>(io::Error::other("it isn't asked again for ten seconds"));
    /// assert_eq!(cache.find_or_load(b"user:8", never)?, None);
    /// cache.change(b"user:8", || Ok::<_, io::Error>(()))?; // it is inserted
    /// let somebody = || Ok::<_, io::Error>(Loaded::row("Ada", 3600));
    /// assert_eq!(cache.find_or_load(b"user:8", somebody)?.as_deref(), Some(&b"Ada"[..]));
    /// # Ok::<(), Box<dyn std::error::Error>>(())
    /// ```
    pub fn find_or_load<E: fmt::Display>(
        &self,
        key: &[u8],
        load: impl FnOnce() -> Result<Loaded, E>,
    ) -> Result<Option<Value>, LoadError<E>> {
        let lease = match self.look(key, true, None) {
            Ok(Lookup::Hit(value)) => return Ok(Some(value)),
            Ok(Lookup::Absent) => return Ok(None),
            Ok(Lookup::Failed(why)) => return Err(LoadError::Elsewhere(why)),
            Ok(Lookup::Miss(lease)) => Some(lease),
            Err(_) => None,
        };
        Ok(loaded(lease, load)?.row.map(Value::from))
    }

    /// The value under the key, or else a lease for who loads it otherwise than [`get_or_load`](HybridCache::get_or_load) does.
    /// It waits as that does, for flash and for one load of another.
    pub fn get_or_lease(&self, key: &[u8]) -> Result<Lookup, Error> {
        self.look(key, true, None)
    }

    /// The same for so long at most, and then [`Error::TimedOut`]: load the value then, and don't store it.
    pub fn get_or_lease_timeout(&self, key: &[u8], limit: Duration) -> Result<Lookup, Error> {
        self.look(key, true, Some(after(limit)))
    }

    // The value, or a lease. Where it is known that there is no such row, that is told, or else it is a miss.
    fn look(&self, key: &[u8], tells_absent: bool, until: Option<Instant>) -> Result<Lookup, Error> {
        let shards = self.shards();
        let mut begun = Begun::new(shards, key);
        let mut may_wait = true;
        loop {
            let (state, begins) = match self.get_or_begin(&mut begun, tells_absent, until)? {
                Sought::Again => continue,
                Sought::Missed(state, begins) => (state, begins),
                Sought::Found(found) => {
                    begun.end(Outcome::Look);
                    return Ok(found);
                }
            };
            let load = match begins {
                Begins::Anothers(load) if may_wait => load,
                _ => return Ok(Lookup::Miss(self.lease(state, &mut begun)?)),
            };
            match shards.wait_for_load(begun.shard, state, load, until)? {
                Waited::Look { was_loaded } => may_wait = !was_loaded,
                Waited::Came(Lookup::Absent) if !tells_absent => may_wait = false,
                Waited::Came(came) => return Ok(came),
            }
        }
    }

    // Gets the key, and begins its load where that misses.
    fn get_or_begin<'a>(
        &'a self,
        begun: &mut Begun<'a>,
        tells_absent: bool,
        until: Option<Instant>,
    ) -> Result<Sought<'a>, Error> {
        let (shards, shard) = (begun.shards, begun.shard);
        let timed = shards.begin_get();
        let mut state = shards.enter(shard)?;
        let mut was_ours = true;
        let held = match state.get(begun.key)? {
            Found::Hit(held) => {
                drop(state);
                shards.end_get(timed);
                Some(held)
            }
            Found::Miss => {
                let begins = begun.begin(&mut state);
                shards.end_get(timed);
                return Ok(Sought::Missed(state, begins));
            }
            Found::Waits(call) => {
                was_ours = begun.begin(&mut state).is_ours();
                held_of(shards.answer_of(shard, state, (begun.key, call), until)?)
            }
        };
        if let Some(held) = held {
            let found = self.found(held)?;
            if tells_absent || !matches!(found, Lookup::Absent) {
                return Ok(Sought::Found(found));
            }
        }
        let mut state = shards.enter(shard)?;
        let begins = begun.begin(&mut state);
        if begins.is_ours() && !was_ours {
            return Ok(Sought::Again); // another's load was over behind the miss, and may have stored
        }
        Ok(Sought::Missed(state, begins))
    }

    /// The same as a future, for any executor: of a get that waits for flash a filler makes the read, and the task is woken. Where
    /// another loads the key, the task is woken once that is over, or [`patience`](crate::Options::patience) is up. (The first
    /// task that waits so begins a thread, which sees to that.)
    pub fn get_or_lease_async<'a>(&'a self, key: &'a [u8]) -> LeaseAsync<'a> {
        LeaseAsync::new(self, key, true)
    }

    // The ticket comes behind the miss, and before the load.
    pub(crate) fn lease(&self, mut state: Locked<'_>, begun: &mut Begun<'_>) -> Result<Lease, Refused> {
        let key = copied(begun.key)?;
        state.loads.begun += 1;
        // (a bar that is due ends here: what is loaded from now on is of behind it)
        state.is_barred(begun.key);
        let ticket = state.engine.now().ticket();
        begun.shards.leave(begun.shard, state);
        let timed = begun.shards.clocked.as_ref().map(TimedLoad::begin);
        Ok(Lease { cache: self.clone(), shard: begun.shard, key, ticket, load: begun.load.take(), head: None, timed })
    }

    /// A lease of a key that has a row, for who loads it anew. None, where another loads it, or its row is being changed.
    pub(crate) fn lease_anew(&self, key: &[u8]) -> Result<Option<Lease>, Error> {
        let mut begun = Begun::new(self.shards(), key);
        let mut state = begun.shards.enter(begun.shard)?;
        if state.is_barred(key) || !begun.begin(&mut state).is_ours() {
            begun.shards.leave(begun.shard, state);
            return Ok(None);
        }
        Ok(Some(self.lease(state, &mut begun)?))
    }

    /// Whether the key's row is being changed, or may still come to be.
    pub(crate) fn is_barred(&self, key: &[u8]) -> Result<bool, Error> {
        let (shards, shard) = (self.shards(), self.shards().of(key));
        let mut state = shards.enter(shard)?;
        let is_barred = state.is_barred(key);
        shards.leave(shard, state); // (a bar that is due ends, and its key is deleted)
        Ok(is_barred)
    }

    /// What was found: a value, or that it is known that there is none.
    pub(crate) fn found(&self, held: Held) -> Result<Lookup, Error> {
        Ok(self.shards().value_of(held)?.map_or(Lookup::Absent, Lookup::Hit))
    }
}

// What a get came to that begins its key's load.
enum Sought<'a> {
    Found(Lookup),
    Missed(Locked<'a>, Begins),
    Again,
}

/// What was loaded, which is kept by the lease, if there is one; or why nothing was, which is told who waits.
pub(crate) fn loaded<E: fmt::Display>(
    lease: Option<Lease>,
    load: impl FnOnce() -> Result<Loaded, E>,
) -> Result<Loaded, LoadError<E>> {
    // (where it panics, the lease is dropped)
    let loaded = load();
    settled(lease, loaded)
}

/// What a load came to is kept by the lease, if there is one; or who waits is told why nothing was loaded.
pub(crate) fn settled<E: fmt::Display>(
    lease: Option<Lease>,
    loaded: Result<Loaded, E>,
) -> Result<Loaded, LoadError<E>> {
    match (lease, &loaded) {
        (Some(lease), Ok(loaded)) => lease.keep(loaded),
        (Some(lease), Err(error)) => lease.fail(error),
        (None, _) => {}
    }
    loaded.map_err(LoadError::Load)
}

impl Lease {
    /// The key that is to be loaded.
    #[must_use]
    pub fn key(&self) -> &[u8] {
        &self.key
    }

    /// Stores a copy of the value that was loaded since the lease was handed out, for `ttl` seconds from now (0: for good), and
    /// wakes who waits for it. Where the key was changed meanwhile, or is being changed, it is [`Kept::Stale`], and not stored.
    /// What isn't stored is handed to who waits.
    pub fn store(mut self, value: &[u8], ttl: u32) -> Result<Kept, Error> {
        match self.head.take() {
            None => self.store_as(value, ttl),
            Some(head) => {
                // (where there is no memory for it, the lease is dropped)
                let (row, ttl) = head.put_before(value, ttl, self.cache.shards().clock.now())?;
                self.store_as(&row, ttl)
            }
        }
    }

    fn store_as(mut self, value: &[u8], ttl: u32) -> Result<Kept, Error> {
        let kept = self.try_store(value, ttl);
        if kept != Ok(Kept::Stored) {
            self.hand_on(|| copied(value).map(Told::Row).ok());
        }
        kept
    }

    /// Keeps that there is no such row, for `ttl` seconds from now (0: for good): a get of the key is a miss then, and a call that
    /// would load it is told. An `add` finds that the key has a value.
    pub fn store_absent(mut self, ttl: u32) -> Result<Kept, Error> {
        let absent = self.cache.shards().absent;
        if self.head.is_some() {
            return self.store(&absent, ttl);
        }
        let kept = self.try_store(&absent, ttl);
        self.finish(Outcome::Absent);
        kept
    }

    /// The load is over, and came to this.
    pub(crate) fn finish(&mut self, outcome: Outcome) {
        if let Some(load) = self.load.take() {
            self.cache.shards().finish_load(self.shard, &self.key, load, outcome);
        }
    }

    // Keeps what was loaded. (What can't be stored is served all the same.)
    fn keep(self, loaded: &Loaded) {
        let _ = match &loaded.row {
            Some(row) => self.store(row, loaded.ttl),
            None => self.store_absent(loaded.ttl),
        };
    }

    /// The load has failed. Who waits for it is told why.
    pub fn fail(mut self, why: impl fmt::Display) {
        self.hand_on(|| Some(Told::failure(&why)));
    }

    fn try_store(&mut self, value: &[u8], ttl: u32) -> Result<Kept, Error> {
        let shards = self.cache.shards();
        let mut state = shards.enter(self.shard)?;
        let kept = match self.ticket {
            Some(ticket) => state.set_leased(ticket, shards.pool_of(&self.key), &self.key, value, ttl),
            None => Ok(Kept::Stale),
        };
        match kept {
            Ok(Kept::Stored) => state.end_loads(&self.key, self.load.take()),
            Ok(Kept::Stale) => state.loads.stale += 1,
            Err(_) => state.loads.refused += 1,
        }
        shards.leave(self.shard, state);
        Ok(kept?)
    }

    // The load is over, and nothing of it is in the cache: what it came to is told who waits.
    fn hand_on(&mut self, told: impl FnOnce() -> Option<Told>) {
        let Some(load) = self.load.take() else { return };
        let shards = self.cache.shards();
        let is_awaited = shards.lock(self.shard).loads.is_awaited(load);
        let is_told = is_awaited && told().is_some_and(|told| shards.tellings.tell((self.shard, load), told).is_ok());
        let outcome = if is_told { Outcome::Told } else { Outcome::Look };
        shards.finish_load(self.shard, &self.key, load, outcome);
    }
}

impl Drop for Lease {
    fn drop(&mut self) {
        self.hand_on(|| Some(Told::failure(&"the load was given up")));
    }
}

impl fmt::Debug for Lease {
    fn fmt(&self, f: &mut fmt::Formatter<'_>) -> fmt::Result {
        write!(f, "Lease(\"{}\")", self.key.escape_ascii())
    }
}
