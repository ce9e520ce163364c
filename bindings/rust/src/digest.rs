//! The digest of a page: SipHash-1-3 (Aumasson and Bernstein, 2012), with a key of zeros, since it is to be the same in each run.

/// A digest of 64 bits, never 0. Each word is mixed into a state of four words by sums, rotations and exclusive ors, each of which
/// can be undone: so two states that differ differ behind any word, and no word makes what stood before it be forgotten. Its key is
/// known, so it isn't made against who chooses both pages.
pub(crate) fn digest_of(bytes: &[u8]) -> u64 {
    sip::<1, 3>([0, 0], bytes).max(1)
}

// SipHash of so many rounds a word, and so many in the end.
fn sip<const EACH: usize, const LAST: usize>(key: [u64; 2], bytes: &[u8]) -> u64 {
    let mut state = State::new(key);
    let mut words = bytes.chunks_exact(8);
    for word in &mut words {
        state.mix::<EACH>(u64::from_le_bytes([word[0], word[1], word[2], word[3], word[4], word[5], word[6], word[7]]));
    }
    // what is left of it, and its length
    let mut last = [0; 8];
    last[..words.remainder().len()].copy_from_slice(words.remainder());
    last[7] = bytes.len() as u8;
    state.mix::<EACH>(u64::from_le_bytes(last));
    state.end::<LAST>()
}

/// The digest of bytes that come one part after the other.
pub(crate) struct Running {
    state: State,
    // the bytes of a word that isn't whole yet
    begun: [u8; 8],
    length: u64,
}

impl Running {
    pub fn new() -> Running {
        Running { state: State::new([0, 0]), begun: [0; 8], length: 0 }
    }

    /// These bytes come next.
    pub fn add(&mut self, bytes: &[u8]) {
        let at = (self.length % 8) as usize;
        self.length = self.length.wrapping_add(bytes.len() as u64);
        let (first, rest) = bytes.split_at(bytes.len().min((8 - at) % 8));
        self.begun[at..at + first.len()].copy_from_slice(first);
        if at + first.len() < 8 && at > 0 {
            return;
        }
        if at > 0 {
            self.state.mix::<1>(u64::from_le_bytes(self.begun));
        }
        let mut words = rest.chunks_exact(8);
        for word in &mut words {
            self.state
                .mix::<1>(u64::from_le_bytes([word[0], word[1], word[2], word[3], word[4], word[5], word[6], word[7]]));
        }
        self.begun[..words.remainder().len()].copy_from_slice(words.remainder());
    }

    /// The digest of all.
    pub fn end(mut self) -> u64 {
        let mut last = [0; 8];
        let at = (self.length % 8) as usize;
        last[..at].copy_from_slice(&self.begun[..at]);
        last[7] = self.length as u8;
        self.state.mix::<1>(u64::from_le_bytes(last));
        self.state.end::<3>().max(1)
    }
}

struct State([u64; 4]);

impl State {
    fn new([a, b]: [u64; 2]) -> State {
        let names = [*b"somepseu", *b"dorandom", *b"lygenera", *b"tedbytes"].map(u64::from_be_bytes);
        State([a ^ names[0], b ^ names[1], a ^ names[2], b ^ names[3]])
    }

    #[inline(always)]
    fn mix<const ROUNDS: usize>(&mut self, word: u64) {
        self.0[3] ^= word;
        (0..ROUNDS).for_each(|_| self.round());
        self.0[0] ^= word;
    }

    #[inline(always)]
    fn round(&mut self) {
        let [a, b, c, d] = &mut self.0;
        *a = a.wrapping_add(*b);
        *c = c.wrapping_add(*d);
        *b = b.rotate_left(13) ^ *a;
        *d = d.rotate_left(16) ^ *c;
        *a = a.rotate_left(32).wrapping_add(*d);
        *c = c.wrapping_add(*b);
        *d = d.rotate_left(21) ^ *a;
        *b = b.rotate_left(17) ^ *c;
        *c = c.rotate_left(32);
    }

    fn end<const ROUNDS: usize>(mut self) -> u64 {
        self.0[2] ^= 0xff;
        (0..ROUNDS).for_each(|_| self.round());
        self.0.into_iter().fold(0, |all, word| all ^ word)
    }
}

#[cfg(test)]
mod tests {
    use super::*;
    use std::hash::{DefaultHasher, Hasher};

    // The word of the digest that was used before, behind which nothing counted that stood in front of it.
    const GOLDEN: u64 = 0x9e37_79b9_7f4a_7c15;

    fn counting(length: usize) -> Vec<u8> {
        (0..length).map(|at| at as u8).collect()
    }

    #[test]
    fn it_is_siphash() {
        // (of its authors: SipHash-2-4 of the first bytes under the key of the bytes 0 to 15)
        let key = [0x0706_0504_0302_0100, 0x0f0e_0d0c_0b0a_0908];
        let published = [(0, 0x726f_db47_dd0e_0e31), (1, 0x74f8_39c5_93dc_67fd), (15, 0xa129_ca61_49be_45e5)];
        for (length, known) in published {
            assert_eq!(sip::<2, 4>(key, &counting(length)), known, "{length}");
        }
        // (of CPython 3.11, whose hash of bytes is SipHash-1-3: PYTHONHASHSEED=0)
        let golden: Vec<u8> = GOLDEN.to_le_bytes().repeat(64);
        for (bytes, known) in [
            (&b"a"[..], 0x4074_48d2_b89b_1813),
            (b"abc", 0xc03b_c3a0_0426_30f2),
            (&counting(15), 0xf30e_b725_bb91_c9ea),
            (&counting(64), 0x75e0_5fd5_bbc8_70c6),
            (&page(), 0x8981_8915_63d6_c49f),
            (&golden, 0xf04d_2bd9_712e_79e7),
        ] {
            assert_eq!(digest_of(bytes), known, "{} bytes", bytes.len());
        }
    }

    #[test]
    fn it_is_that_of_the_standard_library() {
        for length in 0..200 {
            let mut hasher = DefaultHasher::new();
            hasher.write(&counting(length));
            assert_eq!(digest_of(&counting(length)), hasher.finish().max(1), "{length}");
        }
    }

    #[test]
    fn parts_have_the_digest_of_the_whole() {
        let whole = counting(100);
        for first in 0..40 {
            for second in 0..40 {
                let mut running = Running::new();
                running.add(&whole[..first]);
                running.add(&whole[first..first + second]);
                running.add(&whole[first + second..]);
                assert_eq!(running.end(), digest_of(&whole), "{first} and {second}");
            }
        }
    }

    fn page() -> Vec<u8> {
        (0..4096u32).map(|i| ((i * i) >> 3) as u8).collect()
    }

    #[test]
    fn digests_tell_each_bit_and_each_order() {
        let page = page();
        let known = digest_of(&page);
        for bit in 0..4096 * 8 {
            let mut other = page.clone();
            other[bit / 8] ^= 1 << (bit % 8);
            assert_ne!(digest_of(&other), known);
        }
        let mut other = page.clone();
        other.rotate_left(16);
        assert_ne!(digest_of(&other), known);
        assert_ne!(digest_of(&page[..2048]), known);
        assert_ne!(digest_of(&[0; 512]), 0);
    }

    // The constants of the function, and what else a word may have that is taken for nothing.
    fn suspects() -> Vec<u64> {
        let state = State::new([0, 0]).0;
        let mut words = vec![0, 1, u64::MAX, 0xff, 1 << 63, GOLDEN, !GOLDEN, GOLDEN.swap_bytes()];
        words.extend(state);
        words.extend(state.map(|word| !word));
        words.extend(state.map(u64::swap_bytes));
        words
    }

    #[test]
    fn no_word_makes_what_stands_before_it_be_forgotten() {
        // each word of a page is fixed to each suspect, also with the word beside it, and what stands before it is changed
        for suspect in suspects() {
            for at in 1..64 {
                for words in [1, 2, 64 - at] {
                    let mut page = page()[..512].to_vec();
                    let end = (at + words).min(64);
                    (at..end).for_each(|at| page[at * 8..at * 8 + 8].copy_from_slice(&suspect.to_le_bytes()));
                    let known = digest_of(&page);
                    for changed in [0, at - 1] {
                        let mut other = page.clone();
                        other[changed * 8] ^= 1;
                        assert_ne!(digest_of(&other), known, "{suspect:x} from word {at} on, {words} times");
                    }
                }
            }
        }
    }

    #[test]
    fn each_step_can_be_undone() {
        // (so two states that differ differ behind the same word)
        let undo = |state: &mut State, word: u64| {
            let [a, b, c, d] = &mut state.0;
            *a ^= word;
            *c = c.rotate_right(32);
            *b = (*b ^ *c).rotate_right(17);
            *d = (*d ^ *a).rotate_right(21);
            *c = c.wrapping_sub(*b);
            *a = a.wrapping_sub(*d).rotate_right(32);
            *d = (*d ^ *c).rotate_right(16);
            *b = (*b ^ *a).rotate_right(13);
            *c = c.wrapping_sub(*d);
            *a = a.wrapping_sub(*b);
            *d ^= word;
        };
        let mut seed = 1u64;
        let mut next = || {
            seed = seed.wrapping_mul(6_364_136_223_846_793_005).wrapping_add(1_442_695_040_888_963_407);
            seed ^ seed >> 29
        };
        for _ in 0..10_000 {
            let (before, word) = ([(); 4].map(|()| next()), next());
            let mut state = State(before);
            state.mix::<1>(word);
            undo(&mut state, word);
            assert_eq!(state.0, before);
        }
    }
}
