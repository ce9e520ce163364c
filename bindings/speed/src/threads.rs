//! Hits by threads that share a cache in shards, beside the crate `lru` behind as many mutexes: nanoseconds of the clock for
//! each hit, of all threads together, the least of the rounds. The threads ask for keys that all share, or each for keys of
//! shards that are its own. This cache and `lru` are asked in turn, for the same keys by the same hash.
use crate::{copy, key, next};
use kilambosetry::{HybridCache, Options, Pool};
use std::sync::{Barrier, Mutex};
use std::thread;
use std::time::Instant;

const KEYS: u64 = 900;
const DRAWS: usize = 1 << 14;
const ROUNDS: usize = 5;

trait Shared: Sync {
    fn set(&self, key: &[u8], value: &[u8]);
    fn get(&self, key: &[u8], out: &mut [u8]) -> bool;
}

impl Shared for HybridCache {
    fn set(&self, key: &[u8], value: &[u8]) {
        HybridCache::set(self, key, value, 0).unwrap()
    }

    fn get(&self, key: &[u8], out: &mut [u8]) -> bool {
        self.get_into(key, out).unwrap().is_some()
    }
}

#[repr(align(128))]
struct Lane(Mutex<lru::LruCache<Vec<u8>, Vec<u8>>>);

// The other cache tells whose a key is.
struct Lanes<'a>(Vec<Lane>, &'a HybridCache);

impl Lanes<'_> {
    fn lane(&self, key: &[u8]) -> &Lane {
        &self.0[usize::from(self.1.shard_of(key))]
    }
}

impl Shared for Lanes<'_> {
    fn set(&self, key: &[u8], value: &[u8]) {
        self.lane(key).0.lock().unwrap().put(key.to_vec(), value.to_vec());
    }

    fn get(&self, key: &[u8], out: &mut [u8]) -> bool {
        self.lane(key).0.lock().unwrap().get(key).map(|value| copy(value, out)).is_some()
    }
}

// The keys that a thread asks for, as they were drawn.
fn draws(cache: &HybridCache, thread: u16, sharing: u16, own: bool) -> Vec<[u8; 20]> {
    let all = (0..KEYS).map(key);
    let keys: Vec<[u8; 20]> = all.filter(|key| !own || cache.shard_of(key) % sharing == thread % sharing).collect();
    let mut random = 88_172_645_463_325_252 + u64::from(thread);
    (0..DRAWS).map(|_| keys[(next(&mut random) % keys.len() as u64) as usize]).collect()
}

// Nanoseconds of the clock for each hit.
fn round(store: &dyn Shared, draws: &[Vec<[u8; 20]>], times: usize) -> f64 {
    let begin = Barrier::new(draws.len() + 1);
    let elapsed = thread::scope(|scope| {
        for keys in draws {
            let begin = &begin;
            scope.spawn(move || {
                let mut out = [0; 128];
                begin.wait();
                for _ in 0..times {
                    for key in keys {
                        assert!(store.get(key, &mut out));
                    }
                }
                begin.wait();
            });
        }
        begin.wait();
        let start = Instant::now();
        begin.wait();
        start.elapsed()
    });
    elapsed.as_nanos() as f64 / (draws.len() * DRAWS * times) as f64
}

fn measure(threads: u16, shards: u16, own: bool) -> [f64; 2] {
    let pool = Some(Pool { bytes: 4_000_000, items: 4 * KEYS });
    let ours = HybridCache::in_memory(&Options { shards, pool, ..Options::default() }).unwrap();
    let lane = |_| Lane(Mutex::new(lru::LruCache::new(4 * KEYS as usize / usize::from(shards))));
    let theirs = Lanes((0..shards).map(lane).collect(), &ours);
    let stores: [&dyn Shared; 2] = [&ours, &theirs];
    for store in stores {
        (0..KEYS).for_each(|number| store.set(&key(number), &[7; 100]));
    }
    let draws: Vec<_> = (0..threads).map(|thread| draws(&ours, thread, threads.min(shards), own)).collect();
    let mut least = [f64::MAX; 2];
    for _ in 0..ROUNDS {
        for (least, store) in least.iter_mut().zip(stores) {
            *least = least.min(round(store, &draws, 40 / usize::from(threads)));
        }
    }
    least
}

/// Prints a table for keys that all threads share, and one for keys of each thread's own.
pub fn tables() {
    for own in [false, true] {
        println!("{} of {KEYS} keys: ns a hit on the clock (lru)", if own { "each thread its own" } else { "all" });
        for threads in [1, 2, 4, 8] {
            print!("{threads} threads");
            for shards in [1, 4, 16] {
                let [ours, theirs] = measure(threads, shards, own);
                print!("   {shards:2} shards {ours:4.0} ({theirs:.0})");
            }
            println!();
        }
    }
}
