//! Zipf's law in constant memory: rejection-inversion (Hörmann and Derflinger, 1996).
use crate::random::Random;

/// Draws 1 to `keys`: k as often as 1 / k^exponent.
#[derive(Clone, Debug)]
pub struct Zipf {
    keys: f64,
    exponent: f64,
    at_first: f64,
    at_last: f64,
    taken_at_once: f64,
}

impl Zipf {
    /// Of so many keys (1 or more), by an exponent above 0.
    #[must_use]
    pub fn new(keys: u64, exponent: f64) -> Zipf {
        let mut zipf = Zipf { keys: keys.max(1) as f64, exponent, at_first: 0.0, at_last: 0.0, taken_at_once: 0.0 };
        zipf.at_first = zipf.area(1.5) - 1.0;
        zipf.at_last = zipf.area(zipf.keys + 0.5);
        zipf.taken_at_once = 2.0 - zipf.place(zipf.area(2.5) - zipf.weight(2.0));
        zipf
    }

    pub fn draw(&self, random: &mut Random) -> u64 {
        loop {
            let area = self.at_last + random.share() * (self.at_first - self.at_last);
            let place = self.place(area);
            let key = place.round().clamp(1.0, self.keys);
            if key - place <= self.taken_at_once || area >= self.area(key + 0.5) - self.weight(key) {
                return key as u64;
            }
        }
    }

    fn weight(&self, place: f64) -> f64 {
        (-self.exponent * place.ln()).exp()
    }

    // The area below the weights, up to a place.
    fn area(&self, place: f64) -> f64 {
        let log = place.ln();
        exp_less_1_over((1.0 - self.exponent) * log) * log
    }

    // The place up to which there is so much area.
    fn place(&self, area: f64) -> f64 {
        let part = (area * (1.0 - self.exponent)).max(-1.0);
        (log_of_1_and_over(part) * area).exp()
    }
}

// (exp(x) - 1) / x, and what that comes to near 0.
fn exp_less_1_over(x: f64) -> f64 {
    if x.abs() > 1e-8 {
        x.exp_m1() / x
    } else {
        1.0 + x / 2.0
    }
}

// ln(1 + x) / x, and what that comes to near 0.
fn log_of_1_and_over(x: f64) -> f64 {
    if x.abs() > 1e-8 {
        x.ln_1p() / x
    } else {
        1.0 - x / 2.0
    }
}

#[cfg(test)]
mod tests {
    use super::*;

    // The shares of the first keys are those of the law, within half a point.
    #[test]
    fn shares_are_those_of_the_law() {
        for exponent in [0.6, 1.0, 1.3] {
            let (keys, draws) = (1000, 200_000);
            let zipf = Zipf::new(keys, exponent);
            let mut random = Random::new(3);
            let mut counts = vec![0u64; keys as usize + 1];
            (0..draws).for_each(|_| counts[zipf.draw(&mut random) as usize] += 1);
            let weights: Vec<f64> = (1..=keys).map(|key| (key as f64).powf(-exponent)).collect();
            let sum: f64 = weights.iter().sum();
            for key in [1, 2, 3, 10, 100] {
                let (share, wanted) = (counts[key] as f64 / draws as f64, weights[key - 1] / sum);
                assert!((share - wanted).abs() < 0.005, "exponent {exponent}, key {key}: {share} and not {wanted}");
            }
            assert_eq!(counts[0], 0);
        }
    }

    #[test]
    fn one_key_is_always_that() {
        let mut random = Random::new(1);
        assert!((0..100).all(|_| Zipf::new(1, 0.9).draw(&mut random) == 1));
    }
}
