//! A thread's own nanoseconds and allocations of an operation: this cache, the crate `lru`, and a HashMap with a ring of keys,
//! out of which the oldest key goes (it keeps no order of use).
//!
//! Keys have 20 bytes and values 100. Each store is handed the key's bytes and copies the value out into a buffer. The bytes
//! are written just before, as those of a key that is put together for the call, but for `hit by a ready key`: those were
//! written long before, and are read from a list.
//! `speed least KEYS` makes finds alone, of this cache and of `lru` in turn, in many short rounds, and tells the least of each.
//! `speed threads` makes finds by threads that share a cache in shards, beside `lru` behind as many mutexes.
//! `speed many [FOLDER]` makes gets of 100 keys at once, beside gets one after the other, over a file in the folder.
//! `speed hits KEYS` and `speed replaces KEYS` run 200,000 of these of this cache alone, for a profiler.
mod many;
mod threads;

use kilambosetry::{Cache, Pool};
use std::collections::HashMap;
use std::env;
use std::ffi::c_void;
use std::hint::black_box;
use std::os::raw::c_int;
use std::path::PathBuf;
use std::sync::atomic::{AtomicU64, Ordering};

static ALLOCATIONS: AtomicU64 = AtomicU64::new(0);

// one thread alone runs, so that a load and a store count right, and cost next to nothing
fn count() {
    ALLOCATIONS.store(ALLOCATIONS.load(Ordering::Relaxed) + 1, Ordering::Relaxed);
}

extern "C" {
    fn clock_gettime(clock: c_int, time: *mut Time) -> c_int;
    fn __real_malloc(size: usize) -> *mut c_void;
    fn __real_realloc(block: *mut c_void, size: usize) -> *mut c_void;
    fn __real_calloc(count: usize, size: usize) -> *mut c_void;
    fn __real_posix_memalign(block: *mut *mut c_void, align: usize, size: usize) -> c_int;
}

#[no_mangle]
unsafe extern "C" fn __wrap_malloc(size: usize) -> *mut c_void {
    count();
    __real_malloc(size)
}

#[no_mangle]
unsafe extern "C" fn __wrap_realloc(block: *mut c_void, size: usize) -> *mut c_void {
    count();
    __real_realloc(block, size)
}

#[no_mangle]
unsafe extern "C" fn __wrap_calloc(items: usize, size: usize) -> *mut c_void {
    count();
    __real_calloc(items, size)
}

#[no_mangle]
unsafe extern "C" fn __wrap_posix_memalign(block: *mut *mut c_void, align: usize, size: usize) -> c_int {
    count();
    __real_posix_memalign(block, align, size)
}

trait Store {
    fn set(&mut self, key: &[u8], value: &[u8]);
    fn get(&mut self, key: &[u8], out: &mut [u8]) -> Option<usize>;
}

fn copy(value: &[u8], out: &mut [u8]) -> usize {
    out[..value.len()].copy_from_slice(value);
    value.len()
}

impl Store for Cache {
    fn set(&mut self, key: &[u8], value: &[u8]) {
        Cache::set(self, 0, key, value, 0).unwrap()
    }

    fn get(&mut self, key: &[u8], out: &mut [u8]) -> Option<usize> {
        self.get_into(key, out).unwrap()
    }
}

impl Store for lru::LruCache<Vec<u8>, Vec<u8>> {
    fn set(&mut self, key: &[u8], value: &[u8]) {
        self.put(key.to_vec(), value.to_vec());
    }

    fn get(&mut self, key: &[u8], out: &mut [u8]) -> Option<usize> {
        lru::LruCache::get(self, key).map(|value| copy(value, out))
    }
}

struct Ring {
    map: HashMap<Vec<u8>, Vec<u8>>,
    keys: Vec<Vec<u8>>,
    oldest: usize,
    most: usize,
}

impl Store for Ring {
    fn set(&mut self, key: &[u8], value: &[u8]) {
        if self.map.insert(key.to_vec(), value.to_vec()).is_some() {
            return;
        }
        if self.keys.len() < self.most {
            self.keys.push(key.to_vec());
            return;
        }
        let old = std::mem::replace(&mut self.keys[self.oldest], key.to_vec());
        self.map.remove(&old);
        self.oldest = (self.oldest + 1) % self.most;
    }

    fn get(&mut self, key: &[u8], out: &mut [u8]) -> Option<usize> {
        self.map.get(key).map(|value| copy(value, out))
    }
}

fn key(number: u64) -> [u8; 20] {
    let mut key = *b"key:0000000000000000";
    let mut rest = number;
    for digit in key[4..].iter_mut().rev() {
        *digit = b'0' + (rest % 10) as u8;
        rest /= 10;
    }
    key
}

fn next(random: &mut u64) -> u64 {
    *random ^= *random << 13;
    *random ^= *random >> 7;
    *random ^= *random << 17;
    *random
}

#[repr(C)]
struct Time {
    seconds: i64,
    nanoseconds: i64,
}

// Nanoseconds that this thread has run, whatever else the machine does (CLOCK_THREAD_CPUTIME_ID of Linux).
fn own_time() -> f64 {
    let mut time = Time { seconds: 0, nanoseconds: 0 };
    assert_eq!(unsafe { clock_gettime(3, &mut time) }, 0);
    time.seconds as f64 * 1e9 + time.nanoseconds as f64
}

// Nanoseconds and allocations of each of so many operations.
fn timed(operations: u64, mut operation: impl FnMut(u64)) -> (f64, f64) {
    let before = ALLOCATIONS.load(Ordering::Relaxed);
    let start = own_time();
    for i in 0..operations {
        operation(i);
    }
    let nanoseconds = own_time() - start;
    let allocations = (ALLOCATIONS.load(Ordering::Relaxed) - before) as f64;
    (nanoseconds / operations as f64, allocations / operations as f64)
}

// What the making of a key costs, and the reading of a ready one: nanoseconds.
fn making(operations: u64, keys: u64, made: &[[u8; 20]], random: &mut u64) -> [f64; 2] {
    let own = timed(operations, |_| {
        black_box(key(next(random) % keys));
    });
    let ready = timed(operations, |_| {
        black_box(&made[(next(random) % keys) as usize]);
    });
    [own.0, ready.0]
}

// Hits, hits by a ready key, and misses, with the making of the key: nanoseconds and allocations of each.
fn finds(store: &mut dyn Store, operations: u64, keys: u64, made: &[[u8; 20]], random: &mut u64) -> [(f64, f64); 3] {
    let mut out = [0; 128];
    let hit = timed(operations, |_| {
        let found = store.get(&key(next(random) % keys), &mut out);
        assert_eq!(black_box(found), Some(100));
    });
    let ready = timed(operations, |_| {
        let found = store.get(&made[(next(random) % keys) as usize], &mut out);
        assert_eq!(black_box(found), Some(100));
    });
    let miss = timed(operations, |_| {
        let found = store.get(&key(keys * 1000 + next(random) % keys), &mut out);
        assert_eq!(black_box(found), None);
    });
    [hit, ready, miss]
}

fn measure(name: &str, store: &mut dyn Store, keys: u64) {
    let value = [7; 100];
    let mut random = 88_172_645_463_325_252;
    let made: Vec<[u8; 20]> = (0..keys).map(key).collect();
    let operations = 2_000_000;
    for made in &made {
        store.set(made, &value);
    }
    let [own, ready_own] = making(operations, keys, &made, &mut random);
    let [hit, ready, miss] = finds(store, operations, keys, &made, &mut random);
    let replace = timed(operations, |_| store.set(&key(next(&mut random) % keys), &value));
    let evict = timed(operations, |i| store.set(&key(keys + i), &value));
    print!("{name:14} {keys:>8}");
    for (label, (nanoseconds, allocations), own) in [
        ("hit", hit, own),
        ("hit by a ready key", ready, ready_own),
        ("miss", miss, own),
        ("replace", replace, own),
        ("new", evict, own),
    ] {
        print!("  {label} {:5.0} ({allocations:.1})", nanoseconds - own);
    }
    println!();
}

fn cache_for(keys: u64) -> Cache {
    Cache::new(&[Pool { bytes: 4_294_967_296, items: keys }]).unwrap()
}

// Finds alone, of this cache and of `lru` in turn: the least of many short rounds, in some of which the machine did little else.
fn least(keys: u64) {
    let mut random = 88_172_645_463_325_252;
    let made: Vec<[u8; 20]> = (0..keys).map(key).collect();
    let mut stores: [Box<dyn Store>; 2] =
        [Box::new(cache_for(keys)), Box::new(lru::LruCache::<Vec<u8>, Vec<u8>>::new(keys as usize))];
    for store in &mut stores {
        for made in &made {
            store.set(made, &[7; 100]);
        }
    }
    let operations = 20_000;
    let mut least = [[f64::MAX; 3]; 3];
    for _ in 0..100 {
        let [own, ready_own] = making(operations, keys, &made, &mut random);
        let [ours, theirs] = stores
            .each_mut()
            .map(|store| finds(store.as_mut(), operations, keys, &made, &mut random).map(|(ns, _)| ns));
        for (least, round) in least.iter_mut().zip([[own, ready_own, own], ours, theirs]) {
            for (least, nanoseconds) in least.iter_mut().zip(round) {
                *least = least.min(nanoseconds);
            }
        }
    }
    let [own, ours, theirs] = least;
    for (i, label) in ["hit", "hit by a ready key", "miss"].into_iter().enumerate() {
        let (ours, theirs) = (ours[i] - own[i], theirs[i] - own[i]);
        println!("{label}: {ours:.1} ns, lru {theirs:.1}: {:.2} times as much", ours / theirs);
    }
}

// Hits, or replaced values, of this cache alone.
fn alone(word: &str, keys: u64) {
    let mut cache = cache_for(keys);
    let mut out = [0; 128];
    let mut random = 88_172_645_463_325_252;
    for i in 0..keys {
        cache.set(0, &key(i), &[7; 100], 0).unwrap();
    }
    for _ in 0..200_000 {
        let key = key(next(&mut random) % keys);
        match word {
            "hits" => assert_eq!(black_box(cache.get_into(&key, &mut out)), Ok(Some(100))),
            _ => cache.set(0, &key, &[7; 100], 0).unwrap(),
        }
    }
}

fn main() {
    let arguments: Vec<String> = env::args().collect();
    if arguments.get(1).is_some_and(|word| word == "many") {
        let folder = arguments.get(2).map_or_else(env::temp_dir, PathBuf::from);
        return many::table(&folder);
    }
    if let [_, word] = arguments.as_slice() {
        assert_eq!(word, "threads");
        return threads::tables();
    }
    if let [_, word, keys] = arguments.as_slice() {
        let keys = keys.parse().unwrap();
        return if word == "least" { least(keys) } else { alone(word, keys) };
    }
    println!("ns an operation without the making of its key (allocations an operation)");
    for round in 1..=3 {
        println!("round {round}");
        for keys in [1000, 1_000_000] {
            measure("this cache", &mut cache_for(keys), keys);
            measure("lru", &mut lru::LruCache::<Vec<u8>, Vec<u8>>::new(keys as usize), keys);
            let ring = &mut Ring { map: HashMap::new(), keys: Vec::new(), oldest: 0, most: keys as usize };
            measure("HashMap, ring", ring, keys);
        }
    }
}
