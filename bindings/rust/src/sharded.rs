use crate::{library, Cache, Counts, Held, Kept, Losses, Pool, Refused, Ticket, Turn, Usage};
use std::sync::{Mutex, MutexGuard, PoisonError};

/// The shard, from 0, that the key is of, where there are so many: by the upper 24 bits of its FNV-1a hash.
///
/// ```
/// use kilambosetry::shard_of;
///
/// assert_eq!([b"a", b"b", b"c", b"d"].map(|key| shard_of(key, 4)), [0, 3, 2, 1]);
/// ```
#[inline]
#[must_use]
pub fn shard_of(key: &[u8], shards: u8) -> u8 {
    // SAFETY: the key is valid for its length.
    unsafe { library::kilambosetry_shard_of(key.as_ptr(), key.len(), shards) }
}

// A shard, on lines of the processor's memory of its own.
#[repr(align(128))]
#[derive(Debug)]
struct Shard(Mutex<Cache>);

/// A cache of up to 16 pools in memory, cut into shards, for threads that share it: each call locks its key's shard and no
/// other. Each shard has its share of each pool, and evicts by itself, so that what a pool holds depends on how the keys
/// fall.
///
/// ```
/// use kilambosetry::{Pool, ShardedCache};
/// use std::thread;
///
/// let shared = ShardedCache::new(&[Pool { bytes: 1 << 20, items: 1600 }], 16)?;
/// thread::scope(|scope| {
///     for name in [b"a", b"b"] {
///         let shared = &shared;
///         scope.spawn(move || shared.set(0, name, b"here", 0).unwrap());
///     }
/// });
/// assert_eq!(shared.counts().stored, 2);
/// # Ok::<(), kilambosetry::Refused>(())
/// ```
#[derive(Debug)]
pub struct ShardedCache {
    shards: Box<[Shard]>,
}

impl ShardedCache {
    /// An empty cache of these pools in so many shards, 1 to 16. A pool of which a shard would have less than 64 bytes or an
    /// item is [`Refused::BAD_POOL`].
    pub fn new(pools: &[Pool], shards: u8) -> Result<ShardedCache, Refused> {
        // (the first is made also where there is none, and refused)
        let first = Cache::new_shard(pools, shards)?;
        let rest = (1..shards).map(|_| Cache::new_shard(pools, shards));
        let shards = std::iter::once(Ok(first)).chain(rest).map(|made| made.map(|cache| Shard(Mutex::new(cache))));
        Ok(ShardedCache { shards: shards.collect::<Result<_, Refused>>()? })
    }

    /// How many shards it has.
    #[must_use]
    pub fn shards(&self) -> u8 {
        self.shards.len() as u8
    }

    // The key's shard, locked. A thread that panicked while it held the lock left the cache as a call leaves it.
    #[inline]
    fn shard(&self, key: &[u8]) -> MutexGuard<'_, Cache> {
        locked(&self.shards[usize::from(shard_of(key, self.shards()))])
    }

    /// As [`Cache::tick`], of one shard after the other.
    pub fn tick(&self, moment: u64) -> Result<(), Refused> {
        self.shards.iter().try_for_each(|shard| locked(shard).tick(moment))
    }

    /// As [`Cache::set`].
    #[inline]
    pub fn set(&self, pool: u8, key: &[u8], value: &[u8], ttl: u32) -> Result<(), Refused> {
        self.shard(key).set(pool, key, value, ttl)
    }

    /// As [`Cache::add`].
    #[inline]
    pub fn add(&self, pool: u8, key: &[u8], value: &[u8], ttl: u32) -> Result<(), Refused> {
        self.shard(key).add(pool, key, value, ttl)
    }

    /// As [`Cache::get_into`].
    #[inline]
    pub fn get_into(&self, key: &[u8], out: &mut [u8]) -> Result<Option<usize>, Refused> {
        self.shard(key).get_into(key, out)
    }

    /// As [`Cache::get`].
    pub fn get(&self, key: &[u8]) -> Result<Option<Vec<u8>>, Refused> {
        // (copied behind the lock)
        self.read(key)?.map(|mut value| value.try_to_vec()).transpose()
    }

    /// As [`Cache::read`].
    pub fn read(&self, key: &[u8]) -> Result<Option<Held>, Refused> {
        self.shard(key).read(key)
    }

    /// As [`Cache::delete`].
    #[inline]
    pub fn delete(&self, key: &[u8]) -> Result<bool, Refused> {
        self.shard(key).delete(key)
    }

    /// As [`Cache::ticket`], of the key's shard: it is good for the keys of that shard, and stores nothing under others.
    #[must_use]
    pub fn ticket(&self, key: &[u8]) -> Option<Ticket> {
        self.shard(key).ticket()
    }

    /// As [`Cache::set_leased`].
    pub fn set_leased(&self, ticket: Ticket, pool: u8, key: &[u8], value: &[u8], ttl: u32) -> Result<Kept, Refused> {
        self.shard(key).set_leased(ticket, pool, key, value, ttl)
    }

    /// As [`Cache::ask_turn`].
    pub fn ask_turn(&self, key: &[u8], patience: u64) -> Result<Turn, Refused> {
        self.shard(key).ask_turn(key, patience)
    }

    /// As [`Cache::end_turn`].
    pub fn end_turn(&self, key: &[u8]) -> Result<(), Refused> {
        self.shard(key).end_turn(key)
    }

    /// How many calls were begun, of all shards together.
    pub fn calls(&self) -> u64 {
        self.shards.iter().map(|shard| locked(shard).calls()).sum()
    }

    /// What was done so far, of all shards together. Each is asked by itself, so that no two numbers need be of one moment.
    pub fn counts(&self) -> Counts {
        self.shards.iter().fold(Counts::default(), |mut sum, shard| {
            sum += locked(shard).counts();
            sum
        })
    }

    /// How many losses came of each reason, of all shards together.
    pub fn losses(&self) -> Losses {
        self.shards.iter().fold(Losses::default(), |mut sum, shard| {
            sum += locked(shard).losses();
            sum
        })
    }

    /// The usage of the pool with this number, of all shards together.
    pub fn usage(&self, pool: u8) -> Result<Usage, Refused> {
        self.shards.iter().try_fold(Usage::default(), |sum, shard| {
            let one = locked(shard).usage(pool)?;
            Ok(Usage {
                limit_bytes: sum.limit_bytes + one.limit_bytes,
                limit_items: sum.limit_items + one.limit_items,
                bytes: sum.bytes + one.bytes,
                items: sum.items + one.items,
                open_bytes: sum.open_bytes + one.open_bytes,
                open_items: sum.open_items + one.open_items,
            })
        })
    }
}

#[inline]
fn locked(shard: &Shard) -> MutexGuard<'_, Cache> {
    shard.0.lock().unwrap_or_else(PoisonError::into_inner)
}
