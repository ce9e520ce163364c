use std::time::Duration;

// Sixteen steps to each power of two, so that a quantile is right to some six per cent.
const STEPS: u64 = 16;

/// How many took how long.
pub struct Times {
    counts: [u64; 64 * STEPS as usize],
}

impl Default for Times {
    fn default() -> Times {
        Times { counts: [0; 64 * STEPS as usize] }
    }
}

impl Times {
    pub fn count(&mut self, time: Duration) {
        let nanos = (time.as_nanos() as u64).max(STEPS);
        let power = u64::from(nanos.ilog2());
        let step = (nanos >> (power - 4)) - STEPS;
        self.counts[(power * STEPS + step) as usize] += 1;
    }

    pub fn add(&mut self, other: &Times) {
        self.counts.iter_mut().zip(other.counts).for_each(|(count, more)| *count += more);
    }

    /// The time that so large a share of them took at most.
    pub fn quantile(&self, share: f64) -> Duration {
        let wanted = (self.counts.iter().sum::<u64>() as f64 * share) as u64;
        let mut sum = 0;
        let at = self.counts.iter().position(|count| {
            sum += count;
            sum > wanted
        });
        let (power, step) = (at.unwrap_or(0) as u64 / STEPS, at.unwrap_or(0) as u64 % STEPS);
        Duration::from_nanos(if power < 4 { 0 } else { (STEPS + step + 1) << (power - 4) })
    }
}
