use kilambosetry::{Error, HybridCache, Lookup, Options};
use lru::LruCache;
use std::convert::Infallible;
use std::path::Path;
use std::sync::{Mutex, MutexGuard, PoisonError};

// As many bytes have the items of a `HybridCache`, and the rows of `lru`.
const MEMORY: u64 = 10_000_000;
const FLASH: u64 = 200_000_000;
const TTL: u32 = 3600;

/// What stands before the database.
pub enum Caches {
    Leases(HybridCache),
    Sets(HybridCache),
    Plain(HybridCache),
    Lru(Mutex<Rows>),
}

/// The rows of `lru`, and their bytes.
pub struct Rows {
    rows: LruCache<Vec<u8>, Vec<u8>>,
    bytes: u64,
}

impl Rows {
    fn put(&mut self, key: Vec<u8>, value: Vec<u8>) {
        self.bytes += value.len() as u64;
        self.bytes -= self.rows.put(key, value).map_or(0, |before| before.len() as u64);
        while self.bytes > MEMORY {
            self.bytes -= self.rows.pop_lru().map_or(0, |(_, value)| value.len() as u64);
        }
    }
}

fn locked(rows: &Mutex<Rows>) -> MutexGuard<'_, Rows> {
    rows.lock().unwrap_or_else(PoisonError::into_inner)
}

fn key(row: usize) -> Vec<u8> {
    format!("row:{row}").into_bytes()
}

impl Caches {
    /// An empty cache of this name, with its flash in this file.
    pub fn open(name: &str, place: &Path) -> Option<Caches> {
        let options = Options { memory: MEMORY, flash: FLASH, mean_value: 815, ..Options::default() };
        let open = || HybridCache::open(place, &options).expect("the file is made");
        match name {
            "leases" => Some(Caches::Leases(open())),
            "sets" => Some(Caches::Sets(open())),
            "plain" => Some(Caches::Plain(open())),
            "lru" => Some(Caches::Lru(Mutex::new(Rows { rows: LruCache::unbounded(), bytes: 0 }))),
            _ => None,
        }
    }

    /// The row: from the cache, or else from the database, and then it is cached.
    pub fn read(&self, row: usize, mut load: impl FnMut() -> Vec<u8>) -> Vec<u8> {
        let key = key(row);
        let read = match self {
            Caches::Leases(cache) => {
                let row = cache.get_or_load(&key, TTL, || Ok::<_, Infallible>(load()));
                row.ok().map(|row| row.into_vec())
            }
            Caches::Sets(cache) => match cache.get_or_lease(&key) {
                Ok(Lookup::Hit(value)) => Some(value.into_vec()),
                Ok(Lookup::Miss(_lease)) => Some(loaded(cache, &key, &mut load)),
                _ => None,
            },
            Caches::Plain(cache) => match cache.get(&key) {
                Ok(Some(value)) => Some(value.into_vec()),
                Ok(None) => Some(loaded(cache, &key, &mut load)),
                Err(_) => None,
            },
            Caches::Lru(rows) => {
                let found = locked(rows).rows.get(&key).cloned();
                Some(found.unwrap_or_else(|| {
                    let value = load();
                    locked(rows).put(key, value.clone());
                    value
                }))
            }
        };
        read.unwrap_or_else(load) // (what the cache can't do is done without it)
    }

    /// Forgets the row.
    pub fn delete(&self, row: usize) {
        match self {
            Caches::Leases(cache) | Caches::Sets(cache) | Caches::Plain(cache) => {
                while matches!(cache.delete(&key(row)), Err(Error::Refused(_))) {}
            }
            Caches::Lru(rows) => {
                let mut rows = locked(rows);
                let before = rows.rows.pop(&key(row)).map_or(0, |value| value.len() as u64);
                rows.bytes -= before;
            }
        }
    }

    /// Bytes of memory that it may take, where that can be told.
    pub fn memory_bytes(&self) -> Option<u64> {
        match self {
            Caches::Leases(cache) | Caches::Sets(cache) | Caches::Plain(cache) => Some(cache.numbers().memory_bytes()),
            Caches::Lru(_) => None,
        }
    }

    /// Ends it, and prints what it did.
    pub fn close(self) {
        match self {
            Caches::Leases(cache) | Caches::Sets(cache) | Caches::Plain(cache) => println!("{}", cache.close()),
            Caches::Lru(rows) => println!("{} rows", locked(&rows).rows.len()),
        }
    }
}

// What was loaded is stored, whatever was changed meanwhile.
fn loaded(cache: &HybridCache, key: &[u8], load: &mut impl FnMut() -> Vec<u8>) -> Vec<u8> {
    let value = load();
    let _ = cache.set(key, &value, TTL);
    value
}
