//! Threads that make all calls of a cache at once, on keys of which it is known what may be found, while its pages are harmed: no value
//! is stale, another's or torn, whatever was refused, lost, given up or dropped.
//!
//!     stress SECONDS [THREADS [SEED [file|device|memory]]]
//!
//! A third of the time over a file that another writes to, a third over a device that lies and panics, and a third in memory; or all
//! of it over one of these.
mod client;
mod draws;
mod harm;
mod model;
mod plain;
mod rows;
mod tasks;

use client::{Client, Counts};
use harm::{harm, Bad};
use kilambosetry::{HybridCache, Options};
use model::Key;
use rows::{PATIENCE, UNKNOWN_FOR};
use std::error::Error;
use std::sync::atomic::{AtomicBool, Ordering::SeqCst};
use std::time::{Duration, Instant};
use std::{env, fs, process, thread};

const KEYS: u64 = 4000;
const ROWS: u64 = 2000;

fn options() -> Options {
    Options {
        memory: 3_000_000,
        flash: 24_000_000,
        mean_value: 2000,
        shards: 4,
        patience: PATIENCE,
        unknown_for: UNKNOWN_FOR,
        ..Options::default()
    }
}

// What all threads did for so long.
fn stress(cache: &HybridCache, time: Duration, threads: usize, seed: u64) -> Counts {
    let keys: Vec<Key> = (0..KEYS).map(|number| Key::new("key", number)).collect();
    let rows: Vec<Key> = (0..ROWS).map(|number| Key::new("row", number)).collect();
    let until = Instant::now() + time;
    let mut counts = Counts::default();
    thread::scope(|scope| {
        let client = |number: usize| {
            let client = move |keys, rows| {
                Client::new(cache, seed << 16 | number as u64).live((number, threads), keys, rows, until)
            };
            let (keys, rows) = (&keys, &rows);
            scope.spawn(move || client(keys, rows))
        };
        let all: Vec<_> = (0..threads).map(client).collect();
        all.into_iter().for_each(|one| counts += one.join().expect("no thread fails"));
    });
    counts
}

// Says what was done, and judges what is left.
fn end(kind: &str, cache: HybridCache, counts: &Counts) {
    let Counts { calls, hits, rows, failed, late } = counts;
    let stats = cache.close().stats;
    println!("{kind}: {calls} calls, {hits} hits, {rows} rows, {failed} loads that failed, {late} late commits");
    println!(
        "  {} hits from flash, {} lies, {} stale stores, {} waits for loads, {} calls given up, {} clears",
        stats.hits_from_flash,
        stats.device.lies,
        stats.stale_stores,
        stats.waits_for_loads,
        stats.given_up,
        stats.clears
    );
    assert_eq!(stats.waiting, 0, "calls wait still");
    assert!(*hits > 0 && *rows > 0, "nothing was found");
}

// Ends the harm, also where a client panics.
struct Ending<'a>(&'a AtomicBool);

impl Drop for Ending<'_> {
    fn drop(&mut self) {
        self.0.store(true, SeqCst);
    }
}

fn over_a_file(time: Duration, threads: usize, seed: u64) -> Result<(), Box<dyn Error>> {
    let path = env::temp_dir().join(format!("stress-{}", process::id()));
    let cache = HybridCache::open(&path, &options())?;
    let ends = AtomicBool::new(false);
    let (counts, harmed) = thread::scope(|scope| {
        let ending = Ending(&ends);
        let harms = scope.spawn(|| harm(&path, seed, &ends));
        let counts = stress(&cache, time, threads, seed);
        drop(ending);
        (counts, harms.join().expect("it doesn't panic"))
    });
    end("file", cache, &counts);
    println!("  harmed {} times", harmed?);
    Ok(fs::remove_file(path)?)
}

fn over_a_device(time: Duration, threads: usize, seed: u64) -> Result<(), Box<dyn Error>> {
    let cache = HybridCache::over(Bad::new(options().numbers()?.pages()), &options())?;
    let counts = stress(&cache, time, threads, seed);
    end("device", cache, &counts);
    Ok(())
}

fn in_memory(time: Duration, threads: usize, seed: u64) -> Result<(), Box<dyn Error>> {
    let cache = HybridCache::in_memory(&options())?;
    let counts = stress(&cache, time, threads, seed);
    end("memory", cache, &counts);
    Ok(())
}

fn main() -> Result<(), Box<dyn Error>> {
    let word = |at: usize| env::args().nth(at);
    let number = |at: usize, otherwise: u64| word(at).map_or(Ok(otherwise), |word| word.parse());
    let (time, threads, seed) = (Duration::from_secs(number(1, 10)?), number(2, 12)? as usize, number(3, 1)?);
    match word(4).as_deref() {
        Some("file") => over_a_file(time, threads, seed),
        Some("device") => over_a_device(time, threads, seed),
        Some("memory") => in_memory(time, threads, seed),
        _ => {
            over_a_file(time / 3, threads, seed)?;
            over_a_device(time / 3, threads, seed)?;
            in_memory(time / 3, threads, seed)
        }
    }
}
