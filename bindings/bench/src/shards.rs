//! The hit ratios of all sizes at once, of a cache in memory that evicts what was least recently used, by a sample of the keys:
//! SHARDS (Waldspurger, Park, Garthwaite and Ahmad, FAST 2015), with a sample of at most so many keys, and with its correction for
//! keys of which the sample has too many requests or too few (SHARDS-adj).
use crate::forms::hash;
use crate::random::mixed;
use crate::request::{Op, Request};
use crate::stack::Stack;
use std::collections::BTreeSet;

// A key is in the sample if its hash's first bits are a number below a threshold.
const BITS: u32 = 24;
const ALL: u64 = 1 << BITS;
// What a pool charges for an item beside its key and value.
const CHARGE: u64 = 32;
// Sizes are told apart by so many steps to each power of two.
const STEPS: u64 = 64;

/// The sample, and what it tells.
#[derive(Clone, Debug)]
pub struct Sampled {
    stack: Stack,
    hashes: BTreeSet<u64>,
    threshold: u64,
    most: usize,
    // of each step of sizes how many gets would hit from then on
    found: Vec<f64>,
    // gets of the sample that are counted, and gets of all keys
    sampled: f64,
    gets: u64,
    requests: u64,
}

fn step(bytes: u64) -> usize {
    let bytes = bytes.max(STEPS);
    let power = bytes.ilog2() - STEPS.ilog2();
    (u64::from(power) * STEPS + (bytes >> power) - STEPS) as usize
}

impl Sampled {
    /// A share of all keys, and at most so many (1 or more).
    #[must_use]
    pub fn new(share: f64, most: usize) -> Sampled {
        Sampled {
            stack: Stack::default(),
            hashes: BTreeSet::new(),
            threshold: ((share * ALL as f64) as u64).clamp(1, ALL),
            most: most.max(1),
            found: vec![0.0; 64 * STEPS as usize],
            sampled: 0.0,
            gets: 0,
            requests: 0,
        }
    }

    /// The share of all keys that are in the sample.
    #[must_use]
    pub fn share(&self) -> f64 {
        self.threshold as f64 / ALL as f64
    }

    /// Keys in the sample.
    #[must_use]
    pub fn keys(&self) -> usize {
        self.stack.len()
    }

    /// Bytes that a cache is charged that holds all keys.
    #[must_use]
    pub fn bytes_of_all(&self) -> u64 {
        (self.stack.bytes() as f64 / self.share()) as u64
    }

    #[must_use]
    pub fn requests(&self) -> u64 {
        self.requests
    }

    /// Adds a request, each of whose misses stores, and whose get counts.
    pub fn add(&mut self, request: &Request, is_counted: bool) {
        self.requests += 1;
        let is_get = is_counted && matches!(request.op, Op::Get | Op::Look);
        self.gets += u64::from(is_get);
        let key = mixed(hash(&request.key));
        if key >> (64 - BITS) >= self.threshold {
            return;
        }
        if is_get {
            self.sampled += 1.0;
            if let Some(distance) = self.stack.distance(key) {
                let of_all = distance as f64 / self.share();
                self.found[step(of_all as u64)] += 1.0;
            }
        }
        match request.op {
            Op::Delete => self.remove(key),
            // (who stores nothing changes nothing of a key that isn't there)
            Op::Look if self.stack.distance(key).is_none() => {}
            Op::Get | Op::Look | Op::Set => self.put(key, CHARGE + (request.key.len() + request.value) as u64),
        }
    }

    fn remove(&mut self, key: u64) {
        self.stack.remove(key);
        self.hashes.remove(&key);
    }

    fn put(&mut self, key: u64, bytes: u64) {
        self.stack.put(key, bytes);
        self.hashes.insert(key);
        while self.stack.len() > self.most {
            self.take_fewer();
        }
    }

    // The keys with the largest hash go, and what was counted is that of a smaller sample.
    fn take_fewer(&mut self) {
        let before = self.threshold;
        let Some(largest) = self.hashes.last().map(|hash| hash >> (64 - BITS)) else { return };
        self.threshold = largest.max(1);
        for key in self.hashes.split_off(&(self.threshold << (64 - BITS))) {
            self.stack.remove(key);
        }
        let less = self.threshold as f64 / before as f64;
        self.found.iter_mut().for_each(|count| *count *= less);
        self.sampled *= less;
    }

    /// The hit ratio of a cache whose pools are charged so many bytes.
    #[must_use]
    pub fn hit_ratio(&self, bytes: u64) -> f64 {
        let wanted = self.gets as f64 * self.share();
        if wanted == 0.0 {
            return 0.0;
        }
        // (half of its step's)
        let (whole, half) = self.found.split_at(step(bytes));
        let found: f64 = whole.iter().sum::<f64>() + half[0] / 2.0;
        ((found + wanted - self.sampled) / wanted).clamp(0.0, 1.0)
    }
}

#[cfg(test)]
mod tests {
    use super::*;
    use crate::random::Random;
    use crate::zipf::Zipf;

    fn request(op: Op, key: u64) -> Request {
        Request { op, key: key.to_be_bytes().to_vec(), value: 60, ..Request::default() }
    }

    // Keys in a row, again and again: the last step finds nothing until all of them fit.
    #[test]
    fn a_loop_hits_where_it_fits() {
        let mut all = Sampled::new(1.0, usize::MAX);
        for i in 0..10_000 {
            all.add(&request(Op::Get, i % 100), i >= 100);
        }
        assert_eq!((all.keys(), all.bytes_of_all()), (100, 10_000));
        assert_eq!((all.hit_ratio(9_000), all.hit_ratio(11_000)), (0.0, 1.0));
    }

    #[test]
    fn deletes_and_gets_that_store_nothing_are_no_uses() {
        let mut all = Sampled::new(1.0, usize::MAX);
        for op in [Op::Look, Op::Look, Op::Set, Op::Look, Op::Delete, Op::Look] {
            all.add(&request(op, 7), true);
        }
        assert_eq!(all.hit_ratio(1_000_000), 0.25); // one of four
    }

    // A sample that grows too large is as one that was small from the beginning, and near to all keys.
    #[test]
    fn a_sample_tells_nearly_what_all_keys_tell() {
        let zipf = Zipf::new(50_000, 0.8);
        let mut random = Random::new(5);
        let mut by = [Sampled::new(1.0, usize::MAX), Sampled::new(1.0, 20_000), Sampled::new(0.5, usize::MAX)];
        for i in 0..200_000 {
            let request = request(Op::Get, zipf.draw(&mut random));
            by.iter_mut().for_each(|by| by.add(&request, i > 50_000));
        }
        assert!(by[1].keys() <= 20_000 && by[1].share() < 0.55, "{} {}", by[1].keys(), by[1].share());
        for bytes in [100_000, 200_000, 400_000, 800_000, 1_600_000] {
            let [all, grown, share] = by.each_ref().map(|by| by.hit_ratio(bytes));
            assert!((all - grown).abs() < 0.01 && (all - share).abs() < 0.01, "{bytes}: {all} {grown} {share}");
        }
    }
}
