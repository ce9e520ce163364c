use crate::{Added, Cache, Device, Engine, Error, Found, Held, HybridCache, Refused, Reply, ShardedCache, Value};
use std::error;

/// The calls that all caches of this crate have, for code that is to run over any of them: a [`HybridCache`], a [`Cache`] or a
/// [`ShardedCache`] in memory, or an [`EngineWithDevice`].
///
/// ```
/// use kilambosetry::{Cache, HybridCache, KeyValue, Options, Pool};
///
/// fn count<C: KeyValue>(cache: &mut C, page: &[u8]) -> Result<u64, C::Error> {
///     let seen = cache.get(page)?.and_then(|count| Some(u64::from_be_bytes(count[..].try_into().ok()?)));
///     let count = seen.unwrap_or(0) + 1;
///     cache.set(page, &count.to_be_bytes(), 0)?;
///     Ok(count)
/// }
///
/// let mut hybrid = HybridCache::in_memory(&Options::default())?;
/// let mut plain = Cache::new(&[Pool { bytes: 64_000_000, items: 100_000 }])?;
/// assert_eq!((count(&mut hybrid, b"/")?, count(&mut hybrid, b"/")?), (1, 2));
/// assert_eq!((count(&mut plain, b"/")?, count(&mut plain, b"/")?), (1, 2));
/// # Ok::<(), Box<dyn std::error::Error>>(())
/// ```
///
/// Each keeps the promise: a value that was replaced or deleted is never found. A cache that names pools stores in the first of
/// them. A [`HybridCache`] and a [`ShardedCache`] are shared without `&mut`, by their own calls of these names.
pub trait KeyValue {
    /// Why a call has no answer.
    type Error: error::Error + 'static;

    /// The value under the key.
    fn get(&mut self, key: &[u8]) -> Result<Option<Value>, Self::Error>;

    /// Stores a copy of the value under the key, in place of what the key has, for `ttl` seconds from now (0: for good).
    fn set(&mut self, key: &[u8], value: &[u8], ttl: u32) -> Result<(), Self::Error>;

    /// The same where the key has no unexpired value. Whether it did.
    fn add(&mut self, key: &[u8], value: &[u8], ttl: u32) -> Result<bool, Self::Error>;

    /// Takes the key out of the cache, and answers whether there was an item in memory.
    fn delete(&mut self, key: &[u8]) -> Result<bool, Self::Error>;
}

/// An [`Engine`] with the device over which it does its own work, behind each call and wherever one waits. One thread does all
/// of it: a test, say, or a tool.
#[derive(Debug)]
pub struct EngineWithDevice<D> {
    /// The engine.
    pub engine: Engine,
    /// Its device, which has [`Flash::pages`](crate::Flash::pages) pages.
    pub device: D,
}

impl<D: Device> EngineWithDevice<D> {
    // Does what there is to do. What is left for lack of memory is done behind a later call.
    fn catch_up(&mut self) {
        let _ = self.engine.work(&mut self.device);
    }

    // The reply of a call that waits for flash. Where memory is short for the work, the call is given up.
    fn reply(&mut self, call: u64) -> Result<Reply, Refused> {
        if let Err(refused) = self.engine.work(&mut self.device) {
            let _ = self.engine.forget(call);
            return Err(refused);
        }
        self.engine.take_reply(call)
    }
}

impl<D: Device> KeyValue for EngineWithDevice<D> {
    type Error = Refused;

    fn get(&mut self, key: &[u8]) -> Result<Option<Value>, Refused> {
        match self.engine.get(key)? {
            Found::Hit(held) => Value::of(held).map(Some),
            Found::Miss => Ok(None),
            Found::Waits(call) => match self.reply(call)? {
                Reply::Hit(held) => Value::of(held).map(Some),
                Reply::Stored | Reply::Miss => Ok(None),
            },
        }
    }

    fn set(&mut self, key: &[u8], value: &[u8], ttl: u32) -> Result<(), Refused> {
        self.engine.set(0, key, value, ttl)?;
        self.catch_up();
        Ok(())
    }

    fn add(&mut self, key: &[u8], value: &[u8], ttl: u32) -> Result<bool, Refused> {
        let added = match self.engine.add(0, key, value, ttl) {
            Ok(Added::Waits(call)) => self.reply(call).map(|_| ()),
            added => added.map(|_| ()),
        };
        self.catch_up();
        is_stored(added)
    }

    fn delete(&mut self, key: &[u8]) -> Result<bool, Refused> {
        let was_there = self.engine.delete(key)?;
        self.catch_up();
        Ok(was_there)
    }
}

impl KeyValue for Cache {
    type Error = Refused;

    fn get(&mut self, key: &[u8]) -> Result<Option<Value>, Refused> {
        value_of(self.read(key)?)
    }

    fn set(&mut self, key: &[u8], value: &[u8], ttl: u32) -> Result<(), Refused> {
        Cache::set(self, 0, key, value, ttl)
    }

    fn add(&mut self, key: &[u8], value: &[u8], ttl: u32) -> Result<bool, Refused> {
        is_stored(Cache::add(self, 0, key, value, ttl))
    }

    fn delete(&mut self, key: &[u8]) -> Result<bool, Refused> {
        Cache::delete(self, key)
    }
}

impl KeyValue for ShardedCache {
    type Error = Refused;

    fn get(&mut self, key: &[u8]) -> Result<Option<Value>, Refused> {
        value_of(self.read(key)?)
    }

    fn set(&mut self, key: &[u8], value: &[u8], ttl: u32) -> Result<(), Refused> {
        ShardedCache::set(self, 0, key, value, ttl)
    }

    fn add(&mut self, key: &[u8], value: &[u8], ttl: u32) -> Result<bool, Refused> {
        is_stored(ShardedCache::add(self, 0, key, value, ttl))
    }

    fn delete(&mut self, key: &[u8]) -> Result<bool, Refused> {
        ShardedCache::delete(self, key)
    }
}

impl KeyValue for HybridCache {
    type Error = Error;

    fn get(&mut self, key: &[u8]) -> Result<Option<Value>, Error> {
        HybridCache::get(self, key)
    }

    fn set(&mut self, key: &[u8], value: &[u8], ttl: u32) -> Result<(), Error> {
        HybridCache::set(self, key, value, ttl)
    }

    fn add(&mut self, key: &[u8], value: &[u8], ttl: u32) -> Result<bool, Error> {
        HybridCache::add(self, key, value, ttl)
    }

    fn delete(&mut self, key: &[u8]) -> Result<bool, Error> {
        HybridCache::delete(self, key)
    }
}

// A copy of what was read.
fn value_of(read: Option<Held>) -> Result<Option<Value>, Refused> {
    read.map(Value::of).transpose()
}

// Whether an add stored, where one that found a value is no error.
fn is_stored(added: Result<(), Refused>) -> Result<bool, Refused> {
    match added {
        Err(Refused::EXISTS) => Ok(false),
        added => added.map(|()| true),
    }
}
