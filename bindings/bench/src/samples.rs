//! How the run went over time, in constant memory.

/// The state at some moment of the run.
#[derive(Clone, Copy, Debug, Default, PartialEq)]
pub struct Sample {
    pub seconds: f64,
    /// So far: requests, gets that hit, gets that missed, bytes written to flash.
    pub requests: u64,
    pub hits: u64,
    pub misses: u64,
    pub written: u64,
}

const MOST: usize = 400;

/// Samples. Where there are too many, every other one goes, and from then on every other one is kept.
#[derive(Clone, Debug)]
pub struct Samples {
    kept: Vec<Sample>,
    every: u64,
    seen: u64,
}

impl Default for Samples {
    fn default() -> Samples {
        Samples { kept: Vec::new(), every: 1, seen: 0 }
    }
}

impl Samples {
    pub fn add(&mut self, sample: Sample) {
        if self.seen.is_multiple_of(self.every) {
            self.kept.push(sample);
        }
        self.seen += 1;
        if self.kept.len() == MOST {
            let mut place = 0;
            self.kept.retain(|_| {
                place += 1;
                place % 2 == 1
            });
            self.every *= 2;
        }
    }

    #[must_use]
    pub fn kept(&self) -> &[Sample] {
        &self.kept
    }
}

#[cfg(test)]
mod tests {
    use super::*;

    #[test]
    fn however_many_there_are_some_hundreds_are_kept() {
        let mut samples = Samples::default();
        for i in 0..100_000 {
            samples.add(Sample { seconds: f64::from(i), ..Sample::default() });
            assert!(samples.kept().len() < MOST);
        }
        let kept = samples.kept();
        assert!(kept.len() >= MOST / 2 && kept[0].seconds == 0.0);
        let step = kept[1].seconds;
        assert!(kept.windows(2).all(|two| two[1].seconds - two[0].seconds == step), "{step}");
    }
}
