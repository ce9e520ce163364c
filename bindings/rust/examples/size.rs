//! What a cache of a given size does: sets of so many items, then gets of random ones, by threads that share it. It tells how many a
//! second, how long the slowest took, what was forgotten and why, what was written, and what is resident beside what was said.
//!
//!     size WORD=NUMBER ..
//!
//! The words, each with what it is by default: `items` (1000000), `value` (300), `memory`, `flash` and `shards` (those of
//! `Options`), `index_memory` (none), `threads` (4), `gets` (1000000, of all threads), `writers` and `fillers` (2), `flush` (0:
//! never; else each thread waits after so many sets until all is written), `direct` (0; 1: the system keeps no copies of pages), `own`
//! (0: times are the clock's; 1: they are those of the thread alone, whatever else the machine does). `path=FILE` is the file of the
//! flash; without it there is none. Linux alone tells what is resident.
use kilambosetry::{share_one_heap, HybridCache, Options, Stats};
use std::collections::HashMap;
use std::error::Error;
use std::fmt;
use std::thread;
use std::time::{Duration, Instant};
use std::{env, fs};

const KEY: usize = 20;

/// The words of the command line.
struct Words(HashMap<String, String>);

impl Words {
    fn read() -> Words {
        let pair = |word: String| {
            let (name, value) = word.split_once('=').unwrap_or_else(|| panic!("{word} isn't WORD=NUMBER"));
            (name.to_string(), value.to_string())
        };
        Words(env::args().skip(1).map(pair).collect())
    }

    fn number(&self, name: &str, default: u64) -> u64 {
        self.0.get(name).map_or(default, |value| value.parse().unwrap_or_else(|_| panic!("{name}={value}")))
    }

    fn options(&self) -> Options {
        let default = Options::default();
        Options {
            memory: self.number("memory", default.memory),
            flash: self.number("flash", default.flash),
            index_memory: self.0.contains_key("index_memory").then(|| self.number("index_memory", 0)),
            mean_key: KEY as u64,
            mean_value: self.number("value", 300),
            shards: u16::try_from(self.number("shards", 0)).expect("shards are 4,096 or fewer"),
            writers: self.number("writers", 2),
            fillers: self.number("fillers", 2),
            direct: self.number("direct", 0) != 0,
            ..default
        }
    }
}

/// How many calls took how long: each power of two of nanoseconds is cut into 16.
struct Times {
    counts: Vec<u64>,
    longest: u64,
}

impl Times {
    fn new() -> Times {
        Times { counts: vec![0; 64 * 16], longest: 0 }
    }

    fn add(&mut self, nanoseconds: u64) {
        let power = nanoseconds.max(16).ilog2();
        let part = nanoseconds.max(16) >> (power - 4) & 15;
        self.counts[(power * 16) as usize + part as usize] += 1;
        self.longest = self.longest.max(nanoseconds);
    }

    fn join(&mut self, other: &Times) {
        self.counts.iter_mut().zip(&other.counts).for_each(|(sum, count)| *sum += count);
        self.longest = self.longest.max(other.longest);
    }

    // So many of 10,000 took no longer, in microseconds.
    fn of(&self, share: u64) -> f64 {
        let wanted = self.counts.iter().sum::<u64>() * share / 10_000;
        let mut seen = 0;
        let within = |count: &u64| {
            seen += count;
            seen > wanted
        };
        let place = self.counts.iter().position(within).unwrap_or(0) as u64;
        ((16 + place % 16) << (place / 16)) as f64 / 16e3
    }
}

impl fmt::Display for Times {
    fn fmt(&self, f: &mut fmt::Formatter<'_>) -> fmt::Result {
        let [half, most, nearly] = [5000, 9900, 9990].map(|share| self.of(share));
        write!(
            f,
            "p50 {half:.1}, p99 {most:.1}, p99.9 {nearly:.1}, longest {:.1} microseconds",
            self.longest as f64 / 1e3
        )
    }
}

// The time that this thread had a processor.
fn own_time() -> Duration {
    #[repr(C)]
    struct Time {
        seconds: i64,
        nanoseconds: i64,
    }
    extern "C" {
        fn clock_gettime(clock: i32, time: *mut Time) -> i32;
    }
    const OF_THE_THREAD: i32 = 3;
    let mut time = Time { seconds: 0, nanoseconds: 0 };
    // SAFETY: the time is valid for the call.
    unsafe { clock_gettime(OF_THE_THREAD, &mut time) };
    Duration::new(time.seconds as u64, time.nanoseconds as u32)
}

// Bytes of this process that are in memory.
fn resident() -> u64 {
    let status = fs::read_to_string("/proc/self/status").unwrap_or_default();
    let line = status.lines().find_map(|line| line.strip_prefix("VmRSS:")).unwrap_or("0 kB");
    line.trim().trim_end_matches(" kB").parse::<u64>().unwrap() * 1024
}

fn key(number: u64) -> [u8; KEY] {
    let mut key = *b"object:0000000000000";
    let mut rest = number;
    for digit in key[7..].iter_mut().rev() {
        *digit = b'0' + (rest % 10) as u8;
        rest /= 10;
    }
    key
}

/// What the threads do.
struct Load {
    cache: HybridCache,
    items: u64,
    value: usize,
    threads: u64,
    flush: u64,
    is_own: bool,
}

impl Load {
    fn timed<T>(&self, times: &mut Times, call: impl FnOnce() -> T) -> T {
        let (begin, own) = (Instant::now(), self.is_own.then(own_time));
        let answer = call();
        let took = own.map_or_else(|| begin.elapsed(), |own| own_time() - own);
        times.add(took.as_nanos() as u64);
        answer
    }

    // Runs the work in each thread: how long it took, the times of all, and the sum of what they answered.
    fn run(&self, work: impl Fn(u64, &mut Times) -> u64 + Sync) -> (Duration, Times, u64) {
        let begin = Instant::now();
        let (mut all, mut sum) = (Times::new(), 0);
        thread::scope(|scope| {
            let run = |thread| {
                let mut times = Times::new();
                let answer = work(thread, &mut times);
                (times, answer)
            };
            let running: Vec<_> = (0..self.threads).map(|thread| scope.spawn(move || run(thread))).collect();
            for thread in running {
                let (times, answer) = thread.join().unwrap();
                all.join(&times);
                sum += answer;
            }
        });
        (begin.elapsed(), all, sum)
    }

    // Each item is set once.
    fn sets(&self, thread: u64, times: &mut Times) -> u64 {
        let mut value = vec![7; self.value];
        for number in (thread..self.items).step_by(self.threads as usize) {
            let head = self.value.min(8);
            value[..head].copy_from_slice(&number.to_le_bytes()[..head]);
            self.timed(times, || self.cache.set(&key(number), &value, 0)).unwrap();
            if self.flush > 0 && (number / self.threads).is_multiple_of(self.flush) {
                self.cache.flush().unwrap();
            }
        }
        0
    }

    // Random items are got: how many were there.
    fn gets(&self, thread: u64, gets: u64, times: &mut Times) -> u64 {
        let (mut random, mut hits) = (0x9e37_79b9_7f4a_7c15 ^ (thread + 1), 0);
        for _ in 0..gets / self.threads {
            random ^= random << 13;
            random ^= random >> 7;
            random ^= random << 17;
            let number = random % self.items;
            if let Some(value) = self.timed(times, || self.cache.get(&key(number))).unwrap() {
                let head = self.value.min(8);
                assert!(value.len() == self.value && value[..head] == number.to_le_bytes()[..head], "another's value");
                hits += 1;
            }
        }
        hits
    }
}

fn tell(name: &str, calls: u64, took: Duration, times: &Times) {
    println!("{name:8} {:.0} a second, {:.1} s; {times}", calls as f64 / took.as_secs_f64(), took.as_secs_f64());
}

fn tell_flash(stats: &Stats, page: u64, bytes: u64) {
    let written = (stats.device.writes * page) as f64 / bytes as f64;
    println!(
        "flash    {} pages written, {} read; {written:.2} bytes written for each that was set",
        stats.device.writes, stats.device.reads
    );
}

fn main() -> Result<(), Box<dyn Error>> {
    share_one_heap();
    let words = Words::read();
    let options = words.options();
    let before = resident();
    let begin = Instant::now();
    let cache = match words.0.get("path") {
        Some(path) => HybridCache::open(path, &options)?,
        None => HybridCache::in_memory(&options)?,
    };
    let (numbers, opened) = (cache.numbers(), begin.elapsed());
    println!("{numbers}\n");
    println!("opened   in {:.2} s, with {:.1} MB resident", opened.as_secs_f64(), (resident() - before) as f64 / 1e6);
    let load = Load {
        cache,
        items: words.number("items", 1_000_000),
        value: words.number("value", 300) as usize,
        threads: words.number("threads", 4),
        flush: words.number("flush", 0),
        is_own: words.number("own", 0) > 0,
    };
    let (took, times, _) = load.run(|thread, times| load.sets(thread, times));
    tell("sets", load.items, took, &times);
    load.cache.flush()?;
    let set = load.cache.stats();
    if let Some(flash) = &numbers.flash {
        tell_flash(&set, flash.page, load.items * (KEY + load.value) as u64);
    }
    let gets = words.number("gets", 1_000_000);
    let (took, times, hits) = load.run(|thread, times| load.gets(thread, gets, times));
    tell("gets", gets, took, &times);
    let stats = load.cache.stats();
    println!("hits     {hits} of {gets}: {} from memory, {} from flash", stats.hits_from_memory, stats.hits_from_flash);
    println!("{stats}");
    let resident = resident() - before;
    println!(
        "resident {:.1} MB, of {:.1} MB that were said for all full",
        resident as f64 / 1e6,
        numbers.memory_bytes() as f64 / 1e6
    );
    let begin = Instant::now();
    drop(load);
    println!("closed   in {:.2} s", begin.elapsed().as_secs_f64());
    Ok(())
}
