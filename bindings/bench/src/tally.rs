//! What a thread counts of the answers to its requests.
use crate::request::{Op, Request};
use crate::target::Answer;
use kilambosetry::Histogram;

/// Counts, and how long each kind of answer took.
#[derive(Clone, Debug, Default)]
pub struct Tally {
    pub memory_hits: Histogram,
    pub flash_hits: Histogram,
    /// Of gets, with the store of what was loaded.
    pub misses: Histogram,
    pub sets: Histogram,
    pub deletes: Histogram,
    /// Bytes of the values of all gets, and of those that hit.
    pub bytes_asked: u64,
    pub bytes_hit: u64,
    /// Bytes of the keys and values that were stored, or loaded and handed over to be stored.
    pub bytes_stored: u64,
    /// Gets and sets whose key or value is longer than the cache takes.
    pub too_long: u64,
    /// Requests that the cache refused.
    pub refused: u64,
    /// Those of both that are no gets.
    turned_away: u64,
}

impl Tally {
    /// Counts an answer, which took so many nanoseconds.
    pub fn add(&mut self, request: &Request, answer: Answer, time: u64) {
        let is_get = matches!(request.op, Op::Get | Op::Look);
        let stored = (request.key.len() + request.value) as u64;
        self.too_long += u64::from(answer == Answer::TooLong);
        self.refused += u64::from(answer == Answer::Refused);
        match answer {
            Answer::Hit { from_flash, bytes } => {
                self.bytes_asked += bytes as u64;
                self.bytes_hit += bytes as u64;
                if from_flash { &mut self.flash_hits } else { &mut self.memory_hits }.add(time);
            }
            Answer::Miss | Answer::TooLong | Answer::Refused if is_get => {
                self.bytes_asked += request.value as u64;
                self.bytes_stored += if answer == Answer::Miss && request.op == Op::Get { stored } else { 0 };
                self.misses.add(time);
            }
            Answer::Stored => {
                self.bytes_stored += stored;
                self.sets.add(time);
            }
            Answer::Deleted => self.deletes.add(time),
            Answer::Miss | Answer::TooLong | Answer::Refused => self.turned_away += 1,
        }
    }

    pub fn add_all(&mut self, other: &Tally) {
        self.memory_hits.add_all(&other.memory_hits);
        self.flash_hits.add_all(&other.flash_hits);
        self.misses.add_all(&other.misses);
        self.sets.add_all(&other.sets);
        self.deletes.add_all(&other.deletes);
        self.bytes_asked += other.bytes_asked;
        self.bytes_hit += other.bytes_hit;
        self.bytes_stored += other.bytes_stored;
        self.too_long += other.too_long;
        self.refused += other.refused;
        self.turned_away += other.turned_away;
    }

    #[must_use]
    pub fn hits(&self) -> u64 {
        self.memory_hits.count() + self.flash_hits.count()
    }

    #[must_use]
    pub fn gets(&self) -> u64 {
        self.hits() + self.misses.count()
    }

    /// All requests, also those that were refused.
    #[must_use]
    pub fn requests(&self) -> u64 {
        self.gets() + self.sets.count() + self.deletes.count() + self.turned_away
    }

    /// The share of gets that hit, in memory or on flash.
    #[must_use]
    pub fn hit_ratio(&self) -> f64 {
        part(self.hits(), self.gets())
    }

    /// How long all gets took together.
    #[must_use]
    pub fn all_gets(&self) -> Histogram {
        let mut all = self.memory_hits.clone();
        all.add_all(&self.flash_hits);
        all.add_all(&self.misses);
        all
    }

    /// The share of gets that hit in memory.
    #[must_use]
    pub fn memory_hit_ratio(&self) -> f64 {
        part(self.memory_hits.count(), self.gets())
    }

    /// The share of the bytes of all gets that hit.
    #[must_use]
    pub fn byte_hit_ratio(&self) -> f64 {
        part(self.bytes_hit, self.bytes_asked)
    }

    /// The histograms, each with its name.
    #[must_use]
    pub fn times(&self) -> [(&'static str, &Histogram); 5] {
        [
            ("memory hits", &self.memory_hits),
            ("flash hits", &self.flash_hits),
            ("misses", &self.misses),
            ("sets", &self.sets),
            ("deletes", &self.deletes),
        ]
    }
}

/// The share that a part is of the whole; 0, where there is none.
#[must_use]
pub fn part(part: u64, whole: u64) -> f64 {
    if whole == 0 {
        0.0
    } else {
        part as f64 / whole as f64
    }
}

#[cfg(test)]
mod tests {
    use super::*;

    fn request(op: Op) -> Request {
        Request { op, key: b"key".to_vec(), value: 10, ..Request::default() }
    }

    #[test]
    fn each_answer_is_counted_once() {
        let mut tally = Tally::default();
        let hit = |from_flash| Answer::Hit { from_flash, bytes: 30 };
        for (op, answer) in [
            (Op::Get, hit(false)),
            (Op::Look, hit(true)),
            (Op::Get, Answer::Miss),
            (Op::Look, Answer::Miss),
            (Op::Get, Answer::TooLong),
            (Op::Look, Answer::Refused),
            (Op::Set, Answer::Stored),
            (Op::Set, Answer::TooLong),
            (Op::Delete, Answer::Deleted),
            (Op::Delete, Answer::Refused),
        ] {
            tally.add(&request(op), answer, 5);
        }
        assert_eq!((tally.requests(), tally.gets(), tally.hits()), (10, 6, 2));
        assert_eq!((tally.sets.count(), tally.deletes.count(), tally.too_long, tally.refused), (1, 1, 2, 2));
        assert_eq!((tally.bytes_asked, tally.bytes_hit, tally.bytes_stored), (100, 60, 26));
        let mut twice = tally.clone();
        twice.add_all(&tally);
        assert_eq!((twice.requests(), twice.bytes_asked, twice.all_gets().count()), (20, 200, 12));
    }
}
