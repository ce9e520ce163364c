//! Numbers by chance, the same for a seed on each machine (SplitMix64 of Steele, Lea and Flood, 2014).

/// A row of such numbers.
#[derive(Clone, Debug)]
pub struct Random(u64);

const STEP: u64 = 0x9E37_79B9_7F4A_7C15;

/// A number that looks like chance, and is another for each other one.
#[must_use]
pub fn mixed(number: u64) -> u64 {
    let mut mixed = number;
    mixed = (mixed ^ (mixed >> 30)).wrapping_mul(0xBF58_476D_1CE4_E5B9);
    mixed = (mixed ^ (mixed >> 27)).wrapping_mul(0x94D0_49BB_1331_11EB);
    mixed ^ (mixed >> 31)
}

impl Random {
    #[must_use]
    pub fn new(seed: u64) -> Random {
        Random(mixed(seed.wrapping_add(STEP)))
    }

    /// The next, of 64 bits.
    pub fn number(&mut self) -> u64 {
        self.0 = self.0.wrapping_add(STEP);
        mixed(self.0)
    }

    /// One of 0 to `end`, without `end`, which isn't 0.
    pub fn below(&mut self, end: u64) -> u64 {
        ((u128::from(self.number()) * u128::from(end)) >> 64) as u64
    }

    /// A share: from 0 on, and below 1.
    pub fn share(&mut self) -> f64 {
        share_of(self.number())
    }

    /// Whether so likely a thing happens.
    pub fn happens(&mut self, chance: f64) -> bool {
        chance > 0.0 && self.share() < chance
    }
}

/// The share that the number is of all of 64 bits: from 0 on, and below 1.
#[must_use]
pub fn share_of(number: u64) -> f64 {
    (number >> 11) as f64 / (1u64 << 53) as f64
}

#[cfg(test)]
mod tests {
    use super::*;

    #[test]
    fn a_seed_gives_the_same_numbers_and_another_others() {
        let row = |seed| {
            let mut random = Random::new(seed);
            [random.number(), random.number(), random.number()]
        };
        assert_eq!(row(1), row(1));
        assert_ne!(row(1), row(2));
    }

    #[test]
    fn shares_are_spread_evenly() {
        let mut random = Random::new(7);
        let mut tenths = [0; 10];
        for _ in 0..100_000 {
            tenths[(random.share() * 10.0) as usize] += 1;
            assert!(random.below(3) < 3);
        }
        assert!(tenths.iter().all(|count| (9_500..10_500).contains(count)), "{tenths:?}");
    }
}
