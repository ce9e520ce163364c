use crate::lease::loaded;
use crate::shards::drawn;
use crate::{Change, Error, HybridCache, Kept, LoadError, Loaded, Lookup, Refused, Value};
use std::fmt;

/// The bytes of a generation.
const GENERATION: usize = 8;
/// The bytes that stand before each row of a namespace.
pub(crate) const HEAD: usize = GENERATION + 8;
// The longest key of a cache.
const LONGEST: usize = 255;
// The longest name, so that there is room for its keys.
const LONGEST_NAME: usize = 127;

/// What tells the rows of a namespace that were stored since it was cleared from those before.
pub(crate) type Generation = [u8; GENERATION];

/// What stands before each row of a namespace, once it is known for how long it is kept.
#[derive(Clone, Copy)]
pub(crate) struct Head {
    pub generation: Generation,
    /// So many seconds it is kept behind its time to live.
    pub grace: u32,
}

impl Head {
    /// The row with its head, and for how long that is kept.
    pub fn put_before(&self, row: &[u8], ttl: u32, now: u64) -> Result<(Vec<u8>, u32), Refused> {
        let (due, kept) = match ttl {
            0 => (u64::MAX, 0),
            ttl => (now.saturating_add(ttl.into()), ttl.saturating_add(self.grace)),
        };
        let mut value = Vec::new();
        value.try_reserve_exact(HEAD + row.len()).map_err(|_| Refused::NO_MEMORY)?;
        value.extend_from_slice(&self.generation);
        value.extend_from_slice(&due.to_be_bytes());
        value.extend_from_slice(row);
        Ok((value, kept))
    }
}

/// A row that was found in a namespace.
pub(crate) struct Row {
    pub value: Value,
    /// The second at which its time to live is over.
    pub due: u64,
}

/// Room for a key with the name of its namespace. One that is too long has a byte more than a cache takes, so that it is refused.
pub(crate) struct Room {
    bytes: [u8; LONGEST + 1],
    length: usize,
}

impl Room {
    pub fn key(&self) -> &[u8] {
        &self.bytes[..self.length]
    }

    fn of(parts: [&[u8]; 2]) -> Room {
        let mut room = Room { bytes: [0; LONGEST + 1], length: 0 };
        for part in parts {
            let left = &mut room.bytes[room.length..];
            let fits = part.len().min(left.len());
            left[..fits].copy_from_slice(&part[..fits]);
            room.length += fits;
        }
        room
    }
}

/// Keys of a cache that can be forgotten all together, and no others with them: those of a tenant, or of one version of a schema.
/// [`HybridCache::namespace`] makes one.
///
/// ```
/// use kilambosetry::{HybridCache, Options};
/// use std::io;
///
/// let cache = HybridCache::in_memory(&Options::default())?;
/// let (one, other) = (cache.namespace(b"tenant 1")?, cache.namespace(b"tenant 2")?);
/// one.get_or_load(b"user:7", 3600, || Ok::<_, io::Error>("Ada"))?;
/// other.get_or_load(b"user:7", 3600, || Ok::<_, io::Error>("Grace"))?;
/// one.clear();
/// assert!(one.get(b"user:7")?.is_none());
/// assert_eq!(other.get(b"user:7")?.as_deref(), Some(&b"Grace"[..]));
/// # Ok::<(), Box<dyn std::error::Error>>(())
/// ```
///
/// Its name stands before each of its keys, and its *generation*, a number of 64 bits that is drawn by chance, before each of its rows.
/// The generation is in the cache under a key of its own. [`clear`](Namespace::clear) deletes that key, and the next call draws
/// another one: so no row of before is answered, however many there are. They take their room until others push them out.
///
/// **What it costs.** A key is longer by the name and a byte (together 255 bytes at most), a row by 16 bytes, and each get, set and load
/// gets the generation first: [`Stats`](crate::Stats) count that as a get that hits. A namespace that nobody has used for long may have
/// its generation on flash alone, and its next get waits for it; a delete and a clear never do.
///
/// **Where its generation is forgotten**, as any key may be that isn't used, all of the namespace is: the next one is drawn anew. That
/// it is one that the namespace had before, of which rows are left, has a chance of one in 2^64 for each. It never goes back: that key
/// has what was stored last, or nothing, also over a restart ([`Options::keep`](crate::Options::keep)). So a namespace that was
/// cleared is never answered from what it had before, in this cache or in the next one.
///
/// **Loads, leases and changes** are those of the cache, since a key is the same in each generation. What was loaded before a clear is
/// neither stored behind it nor handed to who asks then; and a change that is under way, or a commit in doubt, bars its key whatever
/// is cleared meanwhile. Rows are changed by the namespace's own [`change`](Namespace::change), which knows the key.
///
/// There is no `add`: where a row of before stands, whether there is one can't be told in one step. Nor is there a get of many keys, or
/// one with a time limit. A plain key that begins with a byte
/// that is the length of a name, and with that name, is the namespace's: leave it alone.
#[derive(Clone)]
pub struct Namespace {
    pub(crate) cache: HybridCache,
    // its length, and the name
    name: Vec<u8>,
}

impl HybridCache {
    /// The namespace of this name, 1 to 127 bytes. Any number of them with the same name are the same one, and nothing is kept for it
    /// until it is used. Refused with [`Refused::KEY_EMPTY`], [`Refused::KEY_TOO_LONG`] or [`Refused::NO_MEMORY`].
    pub fn namespace(&self, name: impl AsRef<[u8]>) -> Result<Namespace, Refused> {
        let name = name.as_ref();
        match name.len() {
            0 => return Err(Refused::KEY_EMPTY),
            1..=LONGEST_NAME => {}
            _ => return Err(Refused::KEY_TOO_LONG),
        }
        let mut with_length = Vec::new();
        with_length.try_reserve_exact(name.len() + 1).map_err(|_| Refused::NO_MEMORY)?;
        with_length.push(name.len() as u8);
        with_length.extend_from_slice(name);
        Ok(Namespace { cache: self.clone(), name: with_length })
    }
}

impl Namespace {
    /// Its name.
    #[must_use]
    pub fn name(&self) -> &[u8] {
        &self.name[1..]
    }

    /// Forgets all that it has, in a time that doesn't depend on how much that is. Once this is back, no get finds what was stored
    /// before it began, and what was loaded before that is neither stored nor handed to who comes after. It is one
    /// [`invalidate`](HybridCache::invalidate): it can't be refused, and what a cache that is closed has kept is forgotten.
    pub fn clear(&self) {
        self.cache.invalidate(self.key_of_generation().key());
    }

    /// As [`HybridCache::get`].
    pub fn get(&self, key: &[u8]) -> Result<Option<Value>, Error> {
        let Some(generation) = self.generation_now()? else { return Ok(None) };
        let found = self.cache.get(self.key_of(key).key())?;
        Ok(self.fresh_row(found, generation))
    }

    /// As [`HybridCache::set`].
    pub fn set(&self, key: &[u8], value: &[u8], ttl: u32) -> Result<(), Error> {
        let head = Head { generation: self.generation()?, grace: 0 };
        let (row, ttl) = head.put_before(value, ttl, self.now())?;
        self.cache.set(self.key_of(key).key(), &row, ttl)
    }

    /// As [`HybridCache::delete`].
    pub fn delete(&self, key: &[u8]) -> Result<bool, Error> {
        self.cache.delete(self.key_of(key).key())
    }

    /// As [`HybridCache::invalidate`].
    pub fn invalidate(&self, key: &[u8]) {
        self.cache.invalidate(self.key_of(key).key());
    }

    /// As [`HybridCache::change`].
    pub fn change<T, E>(&self, key: &[u8], commit: impl FnOnce() -> Result<T, E>) -> Result<T, E> {
        self.cache.change(self.key_of(key).key(), commit)
    }

    /// As [`HybridCache::begin_change`].
    pub fn begin_change(&self, key: &[u8]) -> Change {
        self.cache.begin_change(self.key_of(key).key())
    }

    /// As [`HybridCache::get_or_load`]. A row that says that there is none ([`find_or_load`](Namespace::find_or_load)) is loaded anew.
    pub fn get_or_load<V: Into<Vec<u8>>, E: fmt::Display>(
        &self,
        key: &[u8],
        ttl: u32,
        load: impl FnOnce() -> Result<V, E>,
    ) -> Result<Value, LoadError<E>> {
        let lease = match self.look(key, 0, false) {
            Ok(Lookup::Hit(value)) => return Ok(value),
            Ok(Lookup::Failed(why)) => return Err(LoadError::Elsewhere(why)),
            Ok(Lookup::Miss(lease)) => Some(lease),
            Ok(Lookup::Absent) | Err(_) => None,
        };
        let load = || load().map(|row| Loaded::row(row, ttl));
        Ok(Value::from(loaded(lease, load)?.row.unwrap_or_default()))
    }

    /// As [`HybridCache::find_or_load`].
    pub fn find_or_load<E: fmt::Display>(
        &self,
        key: &[u8],
        load: impl FnOnce() -> Result<Loaded, E>,
    ) -> Result<Option<Value>, LoadError<E>> {
        let lease = match self.get_or_lease(key) {
            Ok(Lookup::Hit(value)) => return Ok(Some(value)),
            Ok(Lookup::Absent) => return Ok(None),
            Ok(Lookup::Failed(why)) => return Err(LoadError::Elsewhere(why)),
            Ok(Lookup::Miss(lease)) => Some(lease),
            Err(_) => None,
        };
        Ok(loaded(lease, load)?.row.map(Value::from))
    }

    /// As [`HybridCache::get_or_lease`]. The lease stores into the namespace; its key has the name before it.
    pub fn get_or_lease(&self, key: &[u8]) -> Result<Lookup, Error> {
        self.look(key, 0, true)
    }

    // The row, or a lease, by which a row is kept so many seconds behind its time to live.
    pub(crate) fn look(&self, key: &[u8], grace: u32, tells_absent: bool) -> Result<Lookup, Error> {
        let room = self.key_of(key);
        loop {
            // (what is loaded by the lease is loaded behind this: so it is no older than the generation)
            let generation = self.generation()?;
            let found = self.cache.get_or_lease(room.key())?;
            let told = self.told(found, Head { generation, grace });
            if let Some(lookup) = told.filter(|it| tells_absent || !matches!(it, Lookup::Absent)) {
                return Ok(lookup);
            }
            self.remove_other(&room, generation, self.generation_now()?)?;
        }
    }

    /// What was found, as it is told here; none, where it is of another generation, or its time to live is over.
    pub(crate) fn told(&self, found: Lookup, head: Head) -> Option<Lookup> {
        match found {
            Lookup::Hit(value) => {
                let row = self.row(value, head.generation).filter(|row| self.is_fresh(row))?;
                Some(if self.is_absent(&row.value) { Lookup::Absent } else { Lookup::Hit(row.value) })
            }
            Lookup::Miss(mut lease) => {
                lease.head = Some(head);
                Some(Lookup::Miss(lease))
            }
            Lookup::Absent => None,
            Lookup::Failed(why) => Some(Lookup::Failed(why)),
        }
    }

    /// Something was found that isn't to be told: it is taken away, unless the generation is another one by now. (Where there is none,
    /// it is of one that was forgotten.)
    pub(crate) fn remove_other(
        &self,
        room: &Room,
        generation: Generation,
        now: Option<Generation>,
    ) -> Result<(), Error> {
        if now.is_none_or(|now| now == generation) {
            self.cache.delete(room.key())?;
        }
        Ok(())
    }

    /// The key, with the name before it.
    pub(crate) fn key_of(&self, key: &[u8]) -> Room {
        Room::of([&self.name, key])
    }

    /// The key of the generation. (No name has no byte.)
    pub(crate) fn key_of_generation(&self) -> Room {
        Room::of([&[0], &self.name])
    }

    pub(crate) fn now(&self) -> u64 {
        self.cache.shards().clock.now()
    }

    pub(crate) fn is_absent(&self, row: &[u8]) -> bool {
        self.cache.shards().is_absent(row)
    }

    fn is_fresh(&self, row: &Row) -> bool {
        self.now() < row.due
    }

    /// The row of what was found, unless it says that there is none.
    pub(crate) fn fresh_row(&self, found: Option<Value>, generation: Generation) -> Option<Value> {
        let row = found.and_then(|value| self.row(value, generation)).filter(|row| self.is_fresh(row))?;
        (!self.is_absent(&row.value)).then_some(row.value)
    }

    /// The row of a value, if it is of this generation.
    pub(crate) fn row(&self, value: Value, generation: Generation) -> Option<Row> {
        let mut bytes = value.into_vec();
        let due = bytes.strip_prefix(&generation)?.first_chunk().map(|due| u64::from_be_bytes(*due))?;
        bytes.drain(..HEAD);
        Some(Row { value: bytes.into(), due })
    }

    // The generation, if the cache has one.
    fn generation_now(&self) -> Result<Option<Generation>, Error> {
        let mut found = [0; GENERATION];
        let length = self.cache.get_into(self.key_of_generation().key(), &mut found)?;
        Ok((length == Some(GENERATION)).then_some(found))
    }

    /// The generation. Where there is none it is drawn, by one of those who ask. One that can't be stored is of this call alone: what it
    /// stores is found by nobody.
    pub(crate) fn generation(&self) -> Result<Generation, Error> {
        if let Some(generation) = self.generation_now()? {
            return Ok(generation);
        }
        let lookup = self.cache.get_or_lease(self.key_of_generation().key())?;
        self.generation_of(lookup)
    }

    /// The generation that is there, or a new one.
    pub(crate) fn generation_of(&self, lookup: Lookup) -> Result<Generation, Error> {
        let own = new_generation();
        Ok(match lookup {
            Lookup::Hit(value) => value[..].try_into().unwrap_or_else(|_| {
                self.clear(); // (somebody has set its key)
                own
            }),
            Lookup::Miss(lease) => {
                let _: Kept = lease.store(&own, 0)?;
                own
            }
            Lookup::Absent | Lookup::Failed(_) => own,
        })
    }
}

fn new_generation() -> Generation {
    let [a, b, c, d, e, f, g, h, ..] = drawn();
    [a, b, c, d, e, f, g, h]
}

impl fmt::Debug for Namespace {
    fn fmt(&self, f: &mut fmt::Formatter<'_>) -> fmt::Result {
        write!(f, "Namespace(\"{}\")", self.name().escape_ascii())
    }
}
