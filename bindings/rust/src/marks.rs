use std::sync::atomic::{AtomicU64, Ordering::SeqCst};

const BITS: usize = u64::BITS as usize;

/// Which of up to 4,096 shards are marked. Marks are made without a lock, and found without a look at each shard.
#[derive(Debug)]
pub(crate) struct Marks {
    // a bit for each shard, and one for each word that has any
    words: [AtomicU64; BITS],
    used: AtomicU64,
}

impl Default for Marks {
    fn default() -> Marks {
        Marks { words: [const { AtomicU64::new(0) }; BITS], used: AtomicU64::new(0) }
    }
}

impl Marks {
    /// Marks the shard, and answers whether it wasn't.
    pub fn add(&self, shard: usize) -> bool {
        let (word, bit) = (shard / BITS, 1 << (shard % BITS));
        let is_new = self.words[word].fetch_or(bit, SeqCst) & bit == 0;
        if is_new {
            self.used.fetch_or(1 << word, SeqCst);
        }
        is_new
    }

    /// Takes the mark of the next shard behind this one, or else of the first one. It is called by one thread at a time.
    pub fn take_after(&self, shard: usize) -> Option<usize> {
        let (word, bit) = (shard / BITS, shard % BITS);
        let near = self.take_in(word, above(bit));
        near.or_else(|| self.take_among(above(word))).or_else(|| self.take_among(u64::MAX))
    }

    // Takes the first mark in one of these words.
    fn take_among(&self, words: u64) -> Option<usize> {
        loop {
            let word = first(self.used.load(SeqCst) & words)?;
            let taken = self.take_in(word, u64::MAX);
            if taken.is_some() {
                return taken;
            }
            self.leave(word);
        }
    }

    // Takes the first mark of this word that is one of these bits.
    fn take_in(&self, word: usize, bits: u64) -> Option<usize> {
        let bit = first(self.words[word].load(SeqCst) & bits)?;
        if self.words[word].fetch_and(!(1 << bit), SeqCst) == 1 << bit {
            self.leave(word);
        }
        Some(word * BITS + bit)
    }

    // The word has no mark, unless one came meanwhile.
    fn leave(&self, word: usize) {
        self.used.fetch_and(!(1 << word), SeqCst);
        if self.words[word].load(SeqCst) != 0 {
            self.used.fetch_or(1 << word, SeqCst);
        }
    }

    /// Takes all marks, one after the other. Those that come meanwhile may be left.
    pub fn take_all(&self, mut take: impl FnMut(usize)) {
        for word in ones(self.used.swap(0, SeqCst)) {
            ones(self.words[word].swap(0, SeqCst)).for_each(|bit| take(word * BITS + bit));
        }
    }
}

// The bits behind this one.
fn above(bit: usize) -> u64 {
    u64::MAX << bit << 1
}

fn first(bits: u64) -> Option<usize> {
    (bits != 0).then_some(bits.trailing_zeros() as usize)
}

// The places of the ones, from the lowest on.
fn ones(bits: u64) -> impl Iterator<Item = usize> {
    (0..BITS).filter(move |bit| bits >> bit & 1 == 1)
}

#[cfg(test)]
mod tests {
    use super::*;
    use std::sync::atomic::AtomicBool;
    use std::thread;

    #[test]
    fn marks_are_taken_in_turn() {
        let marks = Marks::default();
        for shard in [4095, 3, 64, 63, 2000] {
            assert!(marks.add(shard) && !marks.add(shard));
        }
        let mut last = 63;
        let mut taken = || {
            last = marks.take_after(last)?;
            Some(last)
        };
        assert_eq!([(); 6].map(|()| taken()), [Some(64), Some(2000), Some(4095), Some(3), Some(63), None]);
        assert!(marks.add(63));
    }

    #[test]
    fn all_are_taken_once() {
        let marks = Marks::default();
        for shard in [4095, 0, 64] {
            marks.add(shard);
        }
        let mut taken = Vec::new();
        marks.take_all(|shard| taken.push(shard));
        marks.take_all(|shard| taken.push(shard));
        assert_eq!((taken, marks.take_after(0)), (vec![0, 64, 4095], None));
    }

    // Whoever marks a shard anew is heard, as often as he does: no mark is lost amid those that are taken.
    #[test]
    fn no_mark_is_lost() {
        let marks = Marks::default();
        let (counts, is_over) = ([0, 1, 64, 4095].map(|shard| (shard, AtomicU64::new(0))), AtomicBool::new(false));
        let mark = |shard: usize, rung: &AtomicU64| {
            for _ in 0..20_000 {
                rung.fetch_add(u64::from(marks.add(shard)), SeqCst);
            }
        };
        let take = || {
            let (mut heard, mut last) = ([0; 4096], 0);
            loop {
                let was_over = is_over.load(SeqCst);
                match marks.take_after(last) {
                    Some(shard) => {
                        heard[shard] += 1;
                        last = shard;
                    }
                    None if was_over => return heard,
                    None => thread::yield_now(),
                }
            }
        };
        let heard = thread::scope(|scope| {
            let taker = scope.spawn(take);
            let markers = counts.each_ref().map(|(shard, rung)| scope.spawn(|| mark(*shard, rung)));
            markers.into_iter().for_each(|marker| marker.join().unwrap());
            is_over.store(true, SeqCst);
            taker.join().unwrap()
        });
        for (shard, rung) in counts {
            assert_eq!(heard[shard], rung.load(SeqCst), "{shard}");
        }
    }
}
