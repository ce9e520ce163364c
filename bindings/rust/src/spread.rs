use std::collections::hash_map::RandomState;
use std::hash::{BuildHasher, Hasher};

/// Spreads keys over shards and pools, by a number that the platform draws by chance for each cache: so nobody else knows which
/// keys are of one shard.
#[derive(Debug)]
pub(crate) struct Spread(u64);

impl Spread {
    pub fn new() -> Spread {
        Spread(RandomState::new().build_hasher().finish())
    }

    /// The one of this number, which an earlier cache had.
    pub fn of(number: u64) -> Spread {
        Spread(number)
    }

    /// Its number.
    pub fn number(&self) -> u64 {
        self.0
    }

    /// A hash of the key, in the time that a few products take. What is folded has the state in both factors, so that no word makes
    /// one of them 0 for who doesn't know it.
    #[inline]
    pub fn hash(&self, key: &[u8]) -> u64 {
        let mut state = self.0.wrapping_add(key.len() as u64);
        for block in key.chunks(16) {
            let mut words = [0; 16];
            words[..block.len()].copy_from_slice(block);
            let words = u128::from_le_bytes(words);
            state = folded(words as u64 ^ state, (words >> 64) as u64 ^ state.rotate_left(32) ^ GOLDEN);
        }
        // (of keys of up to 8 bytes the one factor was the same for all: by some numbers keys that differ in few bytes lie together)
        folded(state, state.rotate_left(32) ^ GOLDEN)
    }
}

const GOLDEN: u64 = 0x9e37_79b9_7f4a_7c15;

fn folded(a: u64, b: u64) -> u64 {
    let product = u128::from(a) * u128::from(b);
    product as u64 ^ (product >> 64) as u64
}

#[cfg(test)]
mod tests {
    use super::*;

    // How many of 16 places keys come to have that have this word in their second half, and the most keys of one.
    fn places(spread: &Spread, word: u64) -> (usize, usize) {
        let mut places = [0; 16];
        for number in 0..1600u64 {
            let key = [number.wrapping_mul(0x5851_f42d_4c95_7f2d).to_le_bytes(), word.to_le_bytes()].concat();
            places[(spread.hash(&key) >> 60) as usize] += 1;
        }
        (places.iter().filter(|keys| **keys > 0).count(), places.into_iter().max().unwrap_or(0))
    }

    #[test]
    fn keys_are_spread_whatever_word_they_have() {
        let spread = Spread::new();
        for word in [0, 1, u64::MAX, GOLDEN, !GOLDEN, GOLDEN.rotate_left(32), 0x243f_6a88_85a3_08d3] {
            let (taken, most) = places(&spread, word);
            assert!(taken == 16 && most < 200, "{word:x}: {taken} of 16, {most} of 1600 at one");
        }
    }

    #[test]
    fn keys_that_differ_in_few_bytes_are_spread_by_every_number() {
        let keys: Vec<_> = (0..400).map(|number| format!("key{number}").into_bytes()).collect();
        for seed in 0..2_000u64 {
            let spread = Spread(folded(seed, GOLDEN));
            let mut places = [0; 4];
            keys.iter().for_each(|key| places[(spread.hash(key) >> 62) as usize] += 1);
            assert!(places.iter().all(|keys| (50..=160).contains(keys)), "{places:?} by {seed}");
        }
    }

    #[test]
    fn each_cache_spreads_them_otherwise() {
        let hashes: Vec<_> = (0..8).map(|_| Spread::new().hash(b"key")).collect();
        assert!(hashes.iter().any(|hash| *hash != hashes[0]), "{hashes:?}");
    }
}
