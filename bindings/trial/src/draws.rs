/// The next of a row of numbers by chance, of 31 bits.
pub fn next(seed: &mut u64) -> u64 {
    *seed = seed.wrapping_mul(6_364_136_223_846_793_005).wrapping_add(1_442_695_040_888_963_407);
    *seed >> 33
}

/// Draws rows by Zipf's law: the k-th of them as often as 1 / k^s.
pub struct Zipf {
    // of each row the share of it and of those before it
    shares: Vec<f64>,
}

impl Zipf {
    pub fn new(rows: usize, s: f64) -> Zipf {
        let weights = (1..=rows).map(|k| (k as f64).powf(-s));
        let mut sum = 0.0;
        let sums: Vec<f64> = weights
            .map(|weight| {
                sum += weight;
                sum
            })
            .collect();
        Zipf { shares: sums.iter().map(|it| it / sum).collect() }
    }

    pub fn draw(&self, seed: &mut u64) -> usize {
        let drawn = (next(seed) as f64 + next(seed) as f64 / (1u64 << 31) as f64) / (1u64 << 31) as f64;
        self.shares.partition_point(|share| *share < drawn).min(self.shares.len() - 1)
    }
}
