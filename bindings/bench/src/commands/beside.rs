use super::{options_of, Ended};
use crate::bytes::Bytes;
use crate::drive::{drive, Driven, Way};
use crate::feed::Pace;
use crate::json::Json;
use crate::memcached::Memcached;
use crate::output::{Output, Told};
use crate::page::Table;
use crate::plain::Plain;
use crate::report::{json_of_times, micros, percent, QUANTILES};
use crate::requests::Requests;
use crate::stop;
use crate::target::{longest_value, Hybrid, Target};
use clap::{value_parser, Args};
use kilambosetry::{HybridCache, Options};
use std::error::Error;

/// Puts the same requests to this cache, in memory, and to others.
#[derive(Debug, Args)]
pub struct Beside {
    #[command(flatten)]
    requests: Requests,

    #[command(flatten)]
    output: Output,

    /// Bytes of memory for items, with what this cache keeps beside each; `lru` has as many bytes of keys and values
    #[arg(short, long, value_name = "BYTES", default_value = "64M")]
    memory: Bytes,

    /// Parts of this cache with a lock each, 1 to 4096; 0: as many as memory and flash want
    #[arg(short, long, value_name = "COUNT", default_value_t = 0, value_parser = value_parser!(u16).range(0..=4096))]
    shards: u16,

    /// Threads that make requests
    #[arg(short, long, value_name = "COUNT", default_value_t = 1, value_parser = value_parser!(u16).range(1..=1024))]
    threads: u16,

    /// When requests are made: full, RATE (a second), own or own:TIMES
    #[arg(short, long, value_name = "PACE", default_value = "full")]
    pace: Pace,

    /// The first so many requests fill the cache at full speed, and aren't counted
    #[arg(short, long, value_name = "COUNT", default_value_t = 0)]
    warm: u64,

    /// A memcached that is empty, or another server of its protocol
    #[arg(long, value_name = "HOST:PORT")]
    memcached: Option<String>,
}

impl Beside {
    /// Runs each, and tells what came of them.
    pub fn go(&self) -> Ended {
        if !self.requests.can_be_read_again() {
            return Err("what comes from a pipe can't be put to several caches".into());
        }
        let means = self.requests.means()?;
        let options = Options { memory: self.memory.0, shards: self.shards, ..options_of(means) };
        let ours = Hybrid::new(HybridCache::in_memory(&options)?, longest_value());
        let plain = Plain::new(ours.cache.numbers().pool.bytes);
        let mut caches: Vec<(&str, Box<dyn Target>)> =
            vec![("this cache", Box::new(ours)), ("lru, a lock", Box::new(plain))];
        if let Some(address) = &self.memcached {
            let server = Memcached::new(address).map_err(|error| format!("{address}: {error}"))?;
            caches.push(("memcached", Box::new(server)));
        }
        let mut came = Vec::new();
        for (name, cache) in caches {
            came.push((name, self.one(&*cache)?));
            if stop::is_told() {
                break;
            }
        }
        self.output.give(&self.told(&came))
    }

    fn one(&self, cache: &dyn Target) -> Result<Driven, Box<dyn Error>> {
        let Beside { pace, warm, .. } = *self;
        let way = Way { threads: self.threads.into(), pace, warm, keeps_up: false, is_quiet: self.output.quiet };
        let mut driven = drive(self.requests.open()?, cache, &way, || ());
        driven.error.take().map_or(Ok(driven), |error| Err(error.into()))
    }

    fn told(&self, came: &[(&str, Driven)]) -> Told {
        let load = self.requests.in_words() + stop::note();
        let table = table(came);
        let text = format!("{load}\n\n{}", table.text());
        let of = |(name, driven): &(&str, Driven)| {
            let times = driven.tally.times().map(|(name, times)| (name.replace(' ', "_"), json_of_times(times)));
            Json::object([
                ("cache", (*name).into()),
                ("requests", driven.tally.requests().into()),
                ("refused", driven.tally.refused.into()),
                ("hit_ratio", driven.tally.hit_ratio().into()),
                ("seconds", driven.seconds.into()),
                ("nanoseconds", Json::Object(times.into_iter().collect())),
            ])
        };
        let json =
            Json::object([("load", load.as_str().into()), ("caches", Json::List(came.iter().map(of).collect()))]);
        Told { load, text, json, pictures: Vec::new(), tables: vec![table] }
    }
}

fn table(came: &[(&str, Driven)]) -> Table {
    let mut head = vec!["microseconds".to_string(), "hits".to_string(), "a second".to_string(), "refused".to_string()];
    for kind in ["hit", "miss"] {
        head.extend(QUANTILES.iter().map(|(name, _)| format!("{kind} {name}")));
    }
    let row = |(name, driven): &(&str, Driven)| {
        let tally = &driven.tally;
        let rate = tally.requests() as f64 / driven.seconds.max(1e-9);
        let mut row =
            vec![name.to_string(), percent(tally.hit_ratio()), format!("{rate:.0}"), tally.refused.to_string()];
        for times in [&tally.memory_hits, &tally.misses] {
            row.extend(QUANTILES.iter().map(|(_, share)| micros(times.quantile(*share))));
        }
        row
    };
    Table { title: "The same requests".to_string(), head, rows: came.iter().map(row).collect() }
}
