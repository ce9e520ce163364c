//! The hit ratios of many sizes of memory without a run: what a sample of the keys tells of each.
use crate::errors::SourceError;
use crate::progress::Progress;
use crate::request::{Passed, Request, Source};
use crate::shards::Sampled;
use crate::stop;
use kilambosetry::Options;

/// A size of memory, and what it comes to.
#[derive(Clone, Copy, Debug, PartialEq)]
pub struct Point {
    /// [`Options::memory`].
    pub memory: u64,
    /// Bytes that such options say are resident.
    pub said: u64,
    pub hit_ratio: f64,
}

/// What was read of the requests.
#[derive(Debug)]
pub struct Read {
    pub sampled: Sampled,
    pub passed: Passed,
    pub error: Option<SourceError>,
}

/// Reads all requests; the first so many (`warm`) aren't counted.
pub fn read(mut source: Box<dyn Source>, mut sampled: Sampled, warm: u64, is_quiet: bool) -> Read {
    let (mut request, mut progress, mut error) = (Request::default(), Progress::new(is_quiet), None);
    while !stop::is_told() {
        match source.next(&mut request) {
            Ok(true) => sampled.add(&request, sampled.requests() >= warm),
            Ok(false) => break,
            Err(found) => {
                error = Some(found);
                break;
            }
        }
        if sampled.requests().is_multiple_of(1 << 16) {
            progress.show(source.share_done(), sampled.requests());
        }
    }
    progress.end();
    Read { sampled, passed: source.passed(), error }
}

/// Sizes from a thousandth of what all keys take up to that, two to each factor of two, in round numbers.
#[must_use]
pub fn sizes(sampled: &Sampled, options: &Options) -> Vec<u64> {
    let all = memory_for(sampled.bytes_of_all(), options) as f64;
    let mut sizes: Vec<u64> = (0..=20).rev().map(|half| rounded_up(all * 0.5f64.powf(f64::from(half) / 2.0))).collect();
    sizes.dedup();
    sizes
}

// The memory whose pools are charged so many bytes, with the mean item.
fn memory_for(charged: u64, options: &Options) -> u64 {
    let Ok(numbers) = (Options { pool: None, ..options.clone() }).numbers_in_memory() else { return charged };
    (charged as f64 * options.memory as f64 / numbers.pool.bytes.max(1) as f64) as u64
}

// Of two digits.
fn rounded_up(bytes: f64) -> u64 {
    let unit = 10f64.powf((bytes.max(1.0).log10() - 1.0).floor());
    ((bytes / unit).ceil() * unit).round() as u64
}

/// What memory of these sizes comes to. Those that no cache may have are left out.
#[must_use]
pub fn points(sampled: &Sampled, sizes: &[u64], options: &Options) -> Vec<Point> {
    let point = |memory: &u64| {
        let numbers = Options { memory: *memory, ..options.clone() }.numbers_in_memory().ok()?;
        let hit_ratio = sampled.hit_ratio(numbers.pool.bytes);
        Some(Point { memory: *memory, said: numbers.memory_bytes(), hit_ratio })
    };
    sizes.iter().filter_map(point).collect()
}

#[cfg(test)]
mod tests {
    use super::*;
    use crate::generate::{tests, Generated, Load};
    use crate::sizes::Sizes;

    fn load() -> Load {
        Load { sizes: Sizes::List(vec![300]), ..tests::load("uniform") }
    }

    // Of keys that are all alike, so large a part of the memory that all of them take hits as large a part of the gets.
    #[test]
    fn a_part_of_the_memory_hits_that_part() {
        let options = Options { mean_key: 20, mean_value: 300, ..Options::default() };
        let read = read(Box::new(Generated::new(load())), Sampled::new(1.0, usize::MAX), 5000, true);
        assert!(read.error.is_none() && read.sampled.keys() == 1000);
        let sizes = sizes(&read.sampled, &options);
        let points = points(&read.sampled, &sizes, &options);
        let all = points.last().unwrap();
        assert!(all.hit_ratio > 0.99 && points.len() > 10, "{points:?}");
        for point in &points {
            let share = point.memory as f64 / all.memory as f64;
            assert!((point.hit_ratio - share).abs() < 0.04, "{point:?}, {share}");
        }
    }

    #[test]
    fn sizes_are_round() {
        assert_eq!(
            [rounded_up(1_234_567.0), rounded_up(9_990_000.0), rounded_up(64e6)],
            [1_300_000, 10_000_000, 64_000_000]
        );
    }
}
