//! Gets of 100 keys at once, beside 100 gets one after the other: of keys that stand on flash alone, over a file, and of keys in
//! memory. Each is asked for keys that nobody has asked for before, in turn: the median of the rounds, by the clock.
use crate::key;
use kilambosetry::{Error, FileError, HybridCache, OpenError, Options, Value};
use std::fs;
use std::hint::black_box;
use std::path::Path;
use std::time::Instant;

const AT_ONCE: u64 = 100;
const ROUNDS: u64 = 41;
// Neighbours were written to the same page: so many keys lie between two that are asked for together.
const APART: u64 = 97;
const VALUE: usize = 1000;

fn options(fillers: u64, direct: bool) -> Options {
    Options { memory: 8_000_000, flash: 120_000_000, fillers, direct, unnamed: true, ..Options::default() }
}

// A cache in a file without a name, and whether its reads go past the system's copies of pages.
fn open(folder: &Path, fillers: u64) -> (HybridCache, bool) {
    match HybridCache::open(folder, &options(fillers, true)) {
        Ok(cache) => (cache, true),
        Err(OpenError::File { why: FileError::Io(_), .. }) => {
            (HybridCache::open(folder, &options(fillers, false)).unwrap(), false)
        }
        Err(error) => panic!("{error}"),
    }
}

fn fill(cache: &HybridCache, keys: u64) {
    for number in 0..keys {
        cache.set(&key(number), &[7; VALUE], 0).unwrap();
        if number % 500 == 0 {
            cache.flush().unwrap(); // (so that none is forgotten)
        }
    }
    cache.flush().unwrap();
}

type Answers = Vec<Result<Option<Value>, Error>>;

fn one_by_one(cache: &HybridCache, keys: &[[u8; 20]]) -> Answers {
    keys.iter().map(|key| cache.get(key)).collect()
}

fn at_once(cache: &HybridCache, keys: &[[u8; 20]]) -> Answers {
    cache.get_many(keys).unwrap()
}

// Microseconds by the clock of the one and the other: the medians.
fn medians(cache: &HybridCache, keys_of: impl Fn(u64) -> Vec<[u8; 20]>) -> [f64; 2] {
    let mut times = [Vec::new(), Vec::new()];
    for round in 0..2 * ROUNDS {
        let keys = keys_of(round);
        let which = (round % 2) as usize;
        let begin = Instant::now();
        let answers = black_box([one_by_one, at_once][which](cache, &keys));
        times[which].push(begin.elapsed().as_secs_f64() * 1e6);
        assert!(answers.iter().all(|found| matches!(found, Ok(Some(value)) if value.len() == VALUE)));
    }
    times.map(|mut times| {
        times.sort_by(f64::total_cmp);
        times[times.len() / 2]
    })
}

fn load() -> String {
    fs::read_to_string("/proc/loadavg").unwrap_or_default().split(' ').take(3).collect::<Vec<_>>().join(" ")
}

/// Prints a line for 2 fillers, for 8, and for keys in memory.
pub fn table(folder: &Path) {
    println!("{AT_ONCE} keys: microseconds one after the other, and at once (the machine's load before: {})", load());
    for fillers in [2, 8] {
        let (cache, is_direct) = open(folder, fillers);
        let all = 2 * ROUNDS * AT_ONCE * 2;
        fill(&cache, all * 2);
        let [one, many] =
            medians(&cache, |round| (0..AT_ONCE).map(|at| key((round * AT_ONCE + at) * APART % all)).collect());
        let how = if is_direct { "O_DIRECT" } else { "the system's copies of pages" };
        let stats = cache.close().stats;
        assert!(stats.hits_from_flash > 2 * ROUNDS * AT_ONCE * 9 / 10, "{stats}");
        println!("on flash, {fillers} fillers, {how}: {one:6.0} {many:6.0}   {:.1} times as fast", one / many);
    }
    let cache = HybridCache::in_memory(&Options::default()).unwrap();
    fill(&cache, 10_000);
    let [one, many] =
        medians(&cache, |round| (0..AT_ONCE).map(|at| key((round * AT_ONCE + at) * APART % 10_000)).collect());
    println!("in memory: {one:6.1} {many:6.1}");
    println!("(the load behind: {})", load());
}
