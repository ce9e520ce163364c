//! A service before its database, tried: eight threads read and change rows, and each read is judged.
//!
//!     trial DATABASE CACHE PERCENT SECONDS [THREADS [harm]]
//!
//! DATABASE is `slow`, a function that takes a millisecond, and now and then ten, or `postgres` (feature `postgres`), over one
//! connection a thread to what PGHOST, PGPORT, PGUSER and PGDATABASE name. A table `trial_rows` is made there.
//!
//!     initdb -D /tmp/rows -A trust
//!     pg_ctl -D /tmp/rows -o "-k /tmp -p 5544 -c listen_addresses=''" -w start
//!     PGHOST=/tmp PGPORT=5544 PGDATABASE=postgres cargo run --release --features postgres -- postgres leases 10 20
//!
//! CACHE is
//!   leases    `HybridCache::get_or_load`
//!   sets      the same, but that what was loaded is stored by `set`, whatever was changed meanwhile
//!   plain     `get`, and after a miss a load and a `set`
//!   lru       the same over the crate `lru` behind a mutex, of as many bytes of rows as the others have memory
//!
//! PERCENT of the operations change a row: it is committed, and then its key is deleted. The others read one: by Zipf 0.9 out of
//! 100,000. A read is stale where its row is older than a change that was answered, with its delete, before the read began. It is
//! wrong where its bytes aren't those of the row. With `harm` the cache's file is cut, and its pages are spoiled or get back what
//! they had before, all the time.
//!
//! All threads share one heap, as a service has it by `share_one_heap`.
//!
//! The status is 1 where a read was wrong, or one with `leases` stale.
mod caches;
mod database;
mod draws;
mod harm;
#[cfg(feature = "postgres")]
mod postgres;
mod times;

use caches::Caches;
use database::{version_of, Database};
use draws::Zipf;
use harm::harm;
use std::process::ExitCode;
use std::sync::atomic::{AtomicBool, AtomicU64, Ordering::Relaxed, Ordering::SeqCst};
use std::time::{Duration, Instant};
use std::{env, fs, process, thread};
use times::Times;

const ROWS: usize = 100_000;

/// What a thread did.
#[derive(Default)]
struct Did {
    reads: u64,
    changes: u64,
    loads: u64,
    stale: u64,
    wrong: u64,
    times: Times,
}

impl Did {
    fn add(mut self, other: Did) -> Did {
        self.reads += other.reads;
        self.changes += other.changes;
        self.loads += other.loads;
        self.stale += other.stale;
        self.wrong += other.wrong;
        self.times.add(&other.times);
        self
    }
}

/// What all threads share.
struct Trial {
    caches: Caches,
    zipf: Zipf,
    // of each row the version from which on none is too old
    least: Vec<AtomicU64>,
    percent: u64,
    ends: AtomicBool,
}

impl Trial {
    fn read(&self, database: &mut dyn Database, row: usize, did: &mut Did) {
        let least = self.least[row].load(SeqCst);
        let begin = Instant::now();
        let mut loads = 0;
        let value = self.caches.read(row, || {
            loads += 1;
            database.load(row)
        });
        did.times.count(begin.elapsed());
        did.reads += 1;
        did.loads += loads;
        match version_of(row, &value) {
            None => did.wrong += 1,
            Some(version) => did.stale += u64::from(version < least),
        }
    }

    fn change(&self, database: &mut dyn Database, row: usize, did: &mut Did) {
        let version = database.change(row);
        self.caches.delete(row);
        self.least[row].fetch_max(version, SeqCst);
        did.changes += 1;
    }

    fn serve(&self, database: &mut dyn Database, seed: u64) -> Did {
        let (mut did, mut seed) = (Did::default(), seed);
        while !self.ends.load(Relaxed) {
            let row = self.zipf.draw(&mut seed);
            if draws::next(&mut seed) % 100 < self.percent {
                self.change(database, row, &mut did);
            } else {
                self.read(database, row, &mut did);
            }
        }
        did
    }
}

fn megabytes(name: &str) -> f64 {
    let status = fs::read_to_string("/proc/self/status").unwrap_or_default();
    let line = status.lines().find_map(|line| line.strip_prefix(name)).unwrap_or("0");
    let kilobytes: String = line.chars().filter(char::is_ascii_digit).collect();
    kilobytes.parse::<f64>().unwrap_or(0.0) / 1e3
}

fn usage() -> ! {
    eprintln!("trial slow|postgres leases|sets|plain|lru PERCENT SECONDS [THREADS [harm]]");
    process::exit(2)
}

fn number(words: &[String], at: usize) -> u64 {
    words.get(at).and_then(|word| word.parse().ok()).unwrap_or_else(|| usage())
}

fn main() -> ExitCode {
    let words: Vec<String> = env::args().skip(1).collect();
    let [of, cache, ..] = &words[..] else { usage() };
    let (percent, seconds) = (number(&words, 2), number(&words, 3));
    let threads = if words.len() > 4 { number(&words, 4) } else { 8 };
    kilambosetry::share_one_heap();
    let is_harmed = match words.get(5).map(String::as_str) {
        None => false,
        Some("harm") => true,
        Some(_) => usage(),
    };
    let databases = database::open(of, threads, ROWS).unwrap_or_else(|| usage());
    let zipf = Zipf::new(ROWS, 0.9);
    let least = (0..ROWS).map(|_| AtomicU64::new(0)).collect();
    let before = megabytes("VmRSS:");
    let place = env::temp_dir().join(format!("trial-{}", process::id()));
    let caches = Caches::open(cache, &place).unwrap_or_else(|| usage());
    let trial = Trial { caches, zipf, least, percent, ends: AtomicBool::new(false) };
    let begin = Instant::now();
    let (did, harmed) = thread::scope(|scope| {
        let harming = is_harmed.then(|| scope.spawn(|| harm(&place, &trial.ends)));
        let serve = |(seed, mut database): (u64, Box<dyn Database>)| {
            let trial = &trial;
            scope.spawn(move || trial.serve(&mut *database, seed))
        };
        let all: Vec<_> = (1..).zip(databases).map(serve).collect();
        thread::sleep(Duration::from_secs(seconds));
        trial.ends.store(true, Relaxed);
        let did = all.into_iter().map(|one| one.join().expect("no thread panics")).fold(Did::default(), Did::add);
        (did, harming.map(|one| one.join().expect("no thread panics").expect("the file can be written")))
    });
    let took = begin.elapsed().as_secs_f64();
    let after = megabytes("VmRSS:");
    let Did { reads, changes, loads, stale, wrong, times } = did;
    println!("{of} {cache}, {percent} % changes, {threads} threads, {took:.1} s");
    println!("stale reads {stale}, wrong reads {wrong}");
    println!("{:.0} reads a second, {reads} in all, {changes} changes", reads as f64 / took);
    println!("{:.1} % of the reads asked the database", 100.0 * loads as f64 / reads.max(1) as f64);
    println!("p50 {:?}, p99 {:?}", times.quantile(0.5), times.quantile(0.99));
    println!("resident {after:.1} MB, of which {before:.1} before the cache was opened");
    if let Some(told) = trial.caches.memory_bytes() {
        let told = told as f64 / 1e6;
        let times = (after - before) / told;
        println!("that is {times:.2} times the {told:.1} MB that its options tell, once all is full");
    }
    if let Some(times) = harmed {
        println!("{times} pages of the file were spoiled under it");
    }
    trial.caches.close();
    let _ = fs::remove_file(&place);
    let is_stale = cache == "leases" && stale > 0;
    ExitCode::from(u8::from(wrong > 0 || is_stale))
}
