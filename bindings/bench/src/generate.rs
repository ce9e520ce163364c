//! Requests that are made up: by a law of which keys are asked for, with scans and keys of one use mixed in.
use crate::errors::SourceError;
use crate::random::{mixed, Random};
use crate::request::{Op, Request, Source};
use crate::sizes::Sizes;
use crate::zipf::Zipf;
use std::str::FromStr;

/// Which key is asked for.
#[derive(Clone, Debug, PartialEq)]
pub enum Law {
    Uniform,
    /// The k-th key as often as 1 / k^exponent.
    Zipf(f64),
    /// A part `keys` of all keys has a part `requests` of the requests; the others have the rest. After so many requests (`moves`,
    /// 0: never) the next such part of the keys is the hot one.
    Hot {
        keys: f64,
        requests: f64,
        moves: u64,
    },
}

impl FromStr for Law {
    type Err = String;

    /// `uniform`, `zipf:EXPONENT` or `hot:KEYS:REQUESTS[:MOVES]`.
    fn from_str(text: &str) -> Result<Law, String> {
        let words: Vec<&str> = text.split(':').collect();
        let number = |word: &str| word.parse::<f64>().ok().filter(|number| number.is_finite());
        let law = match words[..] {
            ["uniform"] => Some(Law::Uniform),
            ["zipf", exponent] => number(exponent).filter(|it| *it > 0.0 && *it <= 10.0).map(Law::Zipf),
            ["hot", keys, requests] => hot(number(keys), number(requests), Some(0)),
            ["hot", keys, requests, moves] => hot(number(keys), number(requests), moves.parse().ok()),
            _ => None,
        };
        law.ok_or_else(|| {
            "it is uniform, zipf:EXPONENT (above 0, at most 10) or hot:KEYS:REQUESTS[:MOVES] (two shares from 0 to 1)"
                .to_string()
        })
    }
}

fn hot(keys: Option<f64>, requests: Option<f64>, moves: Option<u64>) -> Option<Law> {
    let share = |share: &f64| (0.0..=1.0).contains(share);
    Some(Law::Hot { keys: keys.filter(share)?, requests: requests.filter(share)?, moves: moves? })
}

/// What is to be made up.
#[derive(Clone, Debug)]
pub struct Load {
    pub law: Law,
    /// Keys that the law knows, 1 or more.
    pub keys: u64,
    pub requests: u64,
    /// Bytes of a key: 16 to 255.
    pub key_bytes: usize,
    pub sizes: Sizes,
    /// Shares of the requests that are sets, deletes, and gets that store nothing. The rest are gets.
    pub sets: f64,
    pub deletes: f64,
    pub looks: f64,
    /// The share of requests for a key that is asked for once.
    pub once: f64,
    /// After so many requests (0: never) each of `scan_keys` further keys is asked for once, in a row.
    pub scan_every: u64,
    pub scan_keys: u64,
    /// Seconds to live, 0 for good.
    pub ttl: u32,
    pub seed: u64,
}

/// Keys of one use, and those of scans, stand beyond those of the law, which are fewer.
pub const MOST_KEYS: u64 = 1 << 56;
const ONCE: u64 = 1 << 62;
const SCANNED: u64 = 1 << 61;

/// The requests of a load.
#[derive(Clone, Debug)]
pub struct Generated {
    load: Load,
    zipf: Option<Zipf>,
    random: Random,
    made: u64,
    since_scan: u64,
    // keys of the scan that are still to be asked for
    left_of_scan: u64,
}

impl Generated {
    #[must_use]
    pub fn new(load: Load) -> Generated {
        let zipf = match load.law {
            Law::Zipf(exponent) => Some(Zipf::new(load.keys, exponent)),
            _ => None,
        };
        let random = Random::new(load.seed);
        Generated { load, zipf, random, made: 0, since_scan: 0, left_of_scan: 0 }
    }

    fn key(&mut self) -> u64 {
        if self.left_of_scan > 0 {
            self.left_of_scan -= 1;
            return SCANNED + self.left_of_scan;
        }
        self.since_scan += 1;
        if self.since_scan == self.load.scan_every {
            self.since_scan = 0;
            self.left_of_scan = self.load.scan_keys;
        }
        if self.random.happens(self.load.once) {
            return ONCE + self.made;
        }
        self.key_by_law()
    }

    fn key_by_law(&mut self) -> u64 {
        let (keys, random) = (self.load.keys, &mut self.random);
        match (&self.load.law, &self.zipf) {
            (Law::Zipf(_), Some(zipf)) => zipf.draw(random) - 1,
            (Law::Hot { keys: part, requests, moves }, _) => {
                let hot = ((keys as f64 * part) as u64).clamp(1, keys);
                let first = self.made.checked_div(*moves).map_or(0, |moved| moved.wrapping_mul(hot) % keys);
                let place = match random.happens(*requests) || hot == keys {
                    true => random.below(hot),
                    false => hot + random.below(keys - hot),
                };
                (first + place) % keys
            }
            _ => random.below(keys),
        }
    }

    fn op(&mut self) -> Op {
        let Load { sets, deletes, looks, .. } = self.load;
        let drawn = self.random.share();
        match drawn {
            _ if drawn < sets => Op::Set,
            _ if drawn < sets + deletes => Op::Delete,
            _ if drawn < sets + deletes + looks => Op::Look,
            _ => Op::Get,
        }
    }
}

/// Writes the key with this number: 16 digits of a number that looks like chance, behind as many dots as it lacks.
fn write_key(number: u64, length: usize, seed: u64, key: &mut Vec<u8>) {
    const DIGITS: &[u8; 16] = b"0123456789abcdef";
    let drawn = mixed(number ^ mixed(seed));
    key.clear();
    key.resize(length.saturating_sub(16), b'.');
    key.extend((0..16).rev().map(|place| DIGITS[(drawn >> (4 * place)) as usize & 15]));
}

impl Source for Generated {
    fn next(&mut self, request: &mut Request) -> Result<bool, SourceError> {
        if self.made == self.load.requests {
            return Ok(false);
        }
        let is_scan = self.left_of_scan > 0;
        let number = self.key();
        request.op = if is_scan { Op::Get } else { self.op() };
        write_key(number, self.load.key_bytes, self.load.seed, &mut request.key);
        request.value = self.load.sizes.of(number, self.load.seed);
        request.ttl = self.load.ttl;
        self.made += 1;
        Ok(true)
    }

    fn share_done(&self) -> Option<f64> {
        Some(self.made as f64 / self.load.requests.max(1) as f64)
    }
}

#[cfg(test)]
pub mod tests {
    use super::*;
    use std::collections::{HashMap, HashSet};

    /// So many requests of so many keys, which are gets alone.
    pub fn load(law: &str) -> Load {
        Load {
            law: law.parse().unwrap(),
            keys: 1000,
            requests: 20_000,
            key_bytes: 20,
            sizes: Sizes::List(vec![100]),
            sets: 0.0,
            deletes: 0.0,
            looks: 0.0,
            once: 0.0,
            scan_every: 0,
            scan_keys: 0,
            ttl: 0,
            seed: 1,
        }
    }

    fn all(load: Load) -> Vec<Request> {
        let mut source = Generated::new(load);
        let (mut request, mut all) = (Request::default(), Vec::new());
        while source.next(&mut request).unwrap() {
            all.push(request.clone());
        }
        assert_eq!(source.share_done(), Some(1.0));
        all
    }

    fn counts(requests: &[Request]) -> HashMap<&[u8], u64> {
        let mut counts = HashMap::new();
        requests.iter().for_each(|request| *counts.entry(&request.key[..]).or_default() += 1);
        counts
    }

    #[test]
    fn each_law_asks_for_its_keys() {
        let uniform = all(load("uniform"));
        let uniform = counts(&uniform);
        assert!(uniform.len() == 1000 && uniform.values().all(|count| *count < 60));
        let zipf = all(load("zipf:1.0"));
        let most = *counts(&zipf).values().max().unwrap();
        assert!((2_400..2_950).contains(&most), "{most} of 20,000, and 2,672 by the law");
        let hot = all(load("hot:0.01:0.9"));
        let mut hot: Vec<u64> = counts(&hot).into_values().collect();
        hot.sort_unstable();
        let of_hot: u64 = hot.iter().rev().take(10).sum();
        assert!((17_700..18_300).contains(&of_hot), "{of_hot}");
    }

    #[test]
    fn a_hot_set_moves() {
        let requests = all(load("hot:0.01:1:10000"));
        let (first, second) = requests.split_at(10_000);
        let (first, second) = (counts(first), counts(second));
        assert!(first.len() == 10 && second.len() == 10 && first.keys().all(|key| !second.contains_key(key)));
    }

    #[test]
    fn scans_and_keys_of_one_use_are_mixed_in() {
        let mixed = Load { once: 0.25, scan_every: 1000, scan_keys: 100, ..load("hot:0.01:1") };
        let requests = all(mixed);
        let counts = counts(&requests);
        let single = counts.values().filter(|count| **count == 1).count();
        assert!((4_200..5_000).contains(&single), "{single}");
        let scanned = counts.values().filter(|count| (2..=19).contains(*count)).count();
        assert_eq!(scanned, 100); // each by each scan
    }

    #[test]
    fn shares_are_those_that_were_asked_for() {
        let requests = all(Load { sets: 0.1, deletes: 0.2, looks: 0.3, ..load("uniform") });
        let share = |op| requests.iter().filter(|request| request.op == op).count() as f64 / 20_000.0;
        for (op, wanted) in [(Op::Set, 0.1), (Op::Delete, 0.2), (Op::Look, 0.3), (Op::Get, 0.4)] {
            assert!((share(op) - wanted).abs() < 0.015, "{op:?}: {}", share(op));
        }
    }

    #[test]
    fn a_seed_gives_the_same_requests_and_another_others() {
        assert!(all(load("zipf:0.8")) == all(load("zipf:0.8")));
        let other = all(Load { seed: 2, ..load("zipf:0.8") });
        let keys: HashSet<Vec<u8>> = other.into_iter().map(|request| request.key).collect();
        assert!(all(load("zipf:0.8")).iter().all(|request| request.key.len() == 20 && !keys.contains(&request.key)));
    }

    #[test]
    fn nonsense_is_refused() {
        for text in ["", "zipf", "zipf:0", "zipf:x", "zipf:11", "hot:2:1", "hot:0.1", "hot:0.1:0.9:x", "uniform:1"] {
            assert!(text.parse::<Law>().is_err(), "{text}");
        }
    }
}
