//! What a restart takes of a cache that keeps what it has: the seconds of its close and of the next open, those of the processor too, the
//! bytes of the file, and the memory that each takes beside what the cache had.
//!
//! `restart FOLDER MEMORY FLASH VALUE` fills a cache of so many bytes of memory and of flash with values of so many bytes, closes it, and
//! opens it again in another process, which looks whether each of 10,000 keys is what it was. `flash` behind these keeps no items of
//! memory. Linux alone tells (/proc/self/status).
use kilambosetry::{Began, HybridCache, Keep, KeepWhat, Options, Watch};
use std::error::Error;
use std::path::Path;
use std::process::{exit, Command};
use std::time::{Duration, Instant};
use std::{env, fs};

// So many keys are looked at.
const LOOKED_AT: u64 = 10_000;

// Megabytes of this process that are in memory now, and were at most since `begin_anew`.
fn megabytes(name: &str) -> u64 {
    let status = fs::read_to_string("/proc/self/status").unwrap_or_default();
    let line = status.lines().find_map(|line| line.strip_prefix(name)).unwrap_or("0 kB");
    line.trim().trim_end_matches(" kB").parse().map_or(0, |kilobytes: u64| kilobytes / 1000)
}

// The most that were in memory is counted anew from now on.
fn begin_anew() {
    let _ = fs::write("/proc/self/clear_refs", "5");
}

// Seconds that the processors worked for this process: the 14th and 15th field of its line, in hundredths, behind a name in brackets.
fn worked() -> f64 {
    let line = fs::read_to_string("/proc/self/stat").unwrap_or_default();
    let fields = line.rsplit(')').next().unwrap_or_default().split_whitespace().skip(11).take(2);
    fields.filter_map(|ticks| ticks.parse::<f64>().ok()).sum::<f64>() / 100.0
}

fn key(number: u64) -> Vec<u8> {
    format!("key:{number:020}").into_bytes()
}

fn value(number: u64, length: usize) -> Vec<u8> {
    let mut value: Vec<u8> = (0..length).map(|at| (number as u8).wrapping_add(at as u8)).collect();
    let head = number.to_le_bytes();
    let fits = head.len().min(length);
    value[..fits].copy_from_slice(&head[..fits]);
    value
}

struct Case {
    folder: String,
    options: Options,
    length: usize,
}

impl Case {
    fn new(words: &[String]) -> Result<Case, Box<dyn Error>> {
        let [folder, memory, flash, length, ..] = words else { return Err("restart FOLDER MEMORY FLASH VALUE".into()) };
        let what = if words.last().is_some_and(|word| word == "flash") { KeepWhat::Flash } else { KeepWhat::All };
        let keep = Keep {
            what,
            for_at_most: Duration::from_secs(3600),
            close_within: Duration::from_secs(3600),
            watch: Watch::nobody(),
            ..Keep::at(Path::new(folder).join("kept"))
        };
        let (memory, flash) = (memory.parse()?, flash.parse()?);
        let length = length.parse()?;
        let options = Options {
            memory,
            flash,
            mean_value: length,
            index_memory: Some(u64::MAX),
            keep: Some(keep),
            ..Options::default()
        };
        Ok(Case { folder: folder.clone(), options, length: length as usize })
    }

    fn open(&self) -> Result<HybridCache, Box<dyn Error>> {
        Ok(HybridCache::open(Path::new(&self.folder).join("flash"), &self.options)?)
    }

    // As many items as memory and flash hold together.
    fn items(&self) -> Result<u64, Box<dyn Error>> {
        let numbers = self.options.numbers()?;
        Ok(numbers.items() + numbers.flash_items())
    }

    // How many of some keys are there, each of them as it was stored.
    fn count(&self, cache: &HybridCache) -> Result<u64, Box<dyn Error>> {
        let items = self.items()?;
        let mut found = 0;
        for number in (0..items).rev().step_by((items / LOOKED_AT).max(1) as usize) {
            if let Some(value_found) = cache.get(&key(number))? {
                assert!(value_found[..] == value(number, self.length)[..], "it is another's, or torn");
                found += 1;
            }
        }
        Ok(found)
    }

    fn fill_and_close(&self) -> Result<(), Box<dyn Error>> {
        let cache = self.open()?;
        for number in 0..self.items()? {
            cache.set(&key(number), &value(number, self.length), 0)?;
            if number % 4096 == 0 {
                cache.flush()?;
            }
        }
        cache.flush()?;
        println!("{} items of {} bytes: {} of some keys found", self.items()?, self.length, self.count(&cache)?);
        cache.flush()?;
        let before = megabytes("VmRSS:");
        begin_anew();
        let (begin, begun) = (Instant::now(), worked());
        let closed = cache.close();
        let (seconds, worked) = (begin.elapsed().as_secs_f64(), worked() - begun);
        let saved = closed.kept.map_err(|why| format!("not kept: {why}"))?;
        let most = megabytes("VmHWM:");
        println!("closed in {seconds:.2} s, {worked:.2} of a processor: {saved}; {before} MB resident before, {most} at most");
        Ok(())
    }

    fn open_again(&self) -> Result<(), Box<dyn Error>> {
        begin_anew();
        let (begin, begun) = (Instant::now(), worked());
        let cache = self.open()?;
        let (seconds, worked) = (begin.elapsed().as_secs_f64(), worked() - begun);
        let (now, most) = (megabytes("VmRSS:"), megabytes("VmHWM:"));
        let kept = cache.kept();
        println!(
            "opened in {seconds:.2} s, {worked:.2} of a processor, {kept}; {now} MB resident behind it, {most} at most"
        );
        if !matches!(cache.kept(), Began::Kept(_)) {
            return Err("nothing was kept".into());
        }
        println!("{} of the same keys found", self.count(&cache)?);
        Ok(())
    }
}

fn main() -> Result<(), Box<dyn Error>> {
    kilambosetry::share_one_heap();
    let words: Vec<String> = env::args().skip(1).collect();
    match words.first().map(String::as_str) {
        Some("fill") => Case::new(&words[1..])?.fill_and_close(),
        Some("open") => Case::new(&words[1..])?.open_again(),
        _ => {
            Case::new(&words)?;
            for step in ["fill", "open"] {
                let ran = Command::new(env::current_exe()?).arg(step).args(&words).status()?;
                if !ran.success() {
                    exit(1);
                }
            }
            Ok(())
        }
    }
}
