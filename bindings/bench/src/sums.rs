//! Sums over places that are counted up, in logarithmic time (Fenwick, 1994).

/// Numbers at places, of which sums are asked.
#[derive(Clone, Debug)]
pub struct Sums {
    // at i + 1 the sum of the last places up to i, as many as its lowest bit says
    sums: Vec<u64>,
}

impl Sums {
    /// So many places, of 0 each.
    #[must_use]
    pub fn new(places: usize) -> Sums {
        Sums { sums: vec![0; places + 1] }
    }

    /// How many places there are.
    #[must_use]
    pub fn places(&self) -> usize {
        self.sums.len() - 1
    }

    pub fn add(&mut self, place: usize, number: u64) {
        self.change(place, |sum| sum.wrapping_add(number));
    }

    /// Takes away what was added.
    pub fn take(&mut self, place: usize, number: u64) {
        self.change(place, |sum| sum.wrapping_sub(number));
    }

    fn change(&mut self, place: usize, change: impl Fn(u64) -> u64) {
        let mut at = place + 1;
        while let Some(sum) = self.sums.get_mut(at) {
            *sum = change(*sum);
            at += at & at.wrapping_neg();
        }
    }

    /// The sum of all places below this one.
    #[must_use]
    pub fn below(&self, place: usize) -> u64 {
        let (mut at, mut sum) = (place, 0u64);
        while at > 0 {
            sum = sum.wrapping_add(self.sums[at]);
            at &= at - 1;
        }
        sum
    }
}

#[cfg(test)]
mod tests {
    use super::*;
    use crate::random::Random;

    #[test]
    fn sums_are_those_of_a_list() {
        let mut random = Random::new(1);
        let (mut sums, mut list) = (Sums::new(100), [0u64; 100]);
        for _ in 0..1000 {
            let (place, number) = (random.below(100) as usize, random.below(50));
            if list[place] >= number && random.happens(0.5) {
                list[place] -= number;
                sums.take(place, number);
            } else {
                list[place] += number;
                sums.add(place, number);
            }
            let place = random.below(101) as usize;
            assert_eq!(sums.below(place), list[..place].iter().sum::<u64>());
        }
    }
}
