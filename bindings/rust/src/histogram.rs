use std::fmt::Write;

const STEPS: u64 = 32;
const BITS: u32 = STEPS.ilog2();
const PLACES: usize = (64 - BITS as usize + 1) * STEPS as usize;
// Prometheus is told how many took less than each power of two between these.
const LEAST_POWER: u32 = 10;
const MOST_POWER: u32 = 34;

/// How many took how long, in nanoseconds: 32 steps to each power of two, so that a quantile is right to some three parts of a hundred.
///
/// ```
/// use kilambosetry::Histogram;
///
/// let mut times = Histogram::default();
/// (1..=1000).for_each(|micros| times.add(micros * 1000));
/// assert!((500_000..520_000).contains(&times.quantile(0.5)));
/// assert_eq!((times.count(), times.most()), (1000, 1_000_000));
/// ```
#[derive(Clone, Debug)]
pub struct Histogram {
    counts: Vec<u64>,
    count: u64,
    most: u64,
}

impl Default for Histogram {
    fn default() -> Histogram {
        Histogram { counts: vec![0; PLACES], count: 0, most: 0 }
    }
}

fn place(time: u64) -> usize {
    if time < STEPS {
        return time as usize;
    }
    let power = time.ilog2() - BITS;
    ((u64::from(power) + 1) * STEPS + ((time >> power) - STEPS)) as usize
}

// The longest time that stands in this place.
fn longest(place: usize) -> u64 {
    let (power, step) = (place as u64 / STEPS, place as u64 % STEPS);
    match power {
        0 => step,
        _ => (((u128::from(STEPS + step) + 1) << (power - 1)) - 1).min(u128::from(u64::MAX)) as u64,
    }
}

impl Histogram {
    /// So many places there are for times.
    pub const PLACES: usize = PLACES;

    /// The place in which a time is counted.
    #[must_use]
    pub fn place(time: u64) -> usize {
        place(time)
    }

    /// Of counts of the places that were kept elsewhere. The longest is told as the quantiles are.
    #[must_use]
    pub fn of_counts(counts: impl Iterator<Item = u64>) -> Histogram {
        let mut all = Histogram::default();
        all.counts.iter_mut().zip(counts).for_each(|(place, count)| *place = count);
        all.count = all.counts.iter().sum();
        all.most = all.counts.iter().rposition(|count| *count > 0).map_or(0, longest);
        all
    }

    /// What was added since it was as another is.
    #[must_use]
    pub fn since(&self, before: &Histogram) -> Histogram {
        Histogram::of_counts(self.counts.iter().zip(&before.counts).map(|(count, was)| count.saturating_sub(*was)))
    }

    /// One took so long.
    pub fn add(&mut self, time: u64) {
        self.counts[place(time)] += 1;
        self.count += 1;
        self.most = self.most.max(time);
    }

    /// Those of another took as long, too.
    pub fn add_all(&mut self, other: &Histogram) {
        self.counts.iter_mut().zip(&other.counts).for_each(|(count, more)| *count += more);
        self.count += other.count;
        self.most = self.most.max(other.most);
    }

    /// How many there are.
    #[must_use]
    pub fn count(&self) -> u64 {
        self.count
    }

    /// The longest.
    #[must_use]
    pub fn most(&self) -> u64 {
        self.most
    }

    /// The time that so large a share took at most; 0, where there are none.
    #[must_use]
    pub fn quantile(&self, share: f64) -> u64 {
        let wanted = ((self.count as f64 * share).ceil() as u64).clamp(1, self.count.max(1));
        let mut sum = 0;
        let found = self.counts.iter().position(|count| {
            sum += count;
            sum >= wanted
        });
        found.map_or(0, |place| longest(place).min(self.most))
    }

    // How long all took together, each as long as the longest of its place.
    fn sum(&self) -> u128 {
        let times = self.counts.iter().enumerate().filter(|(_, count)| **count > 0);
        times.map(|(place, count)| u128::from(*count) * u128::from(longest(place).min(self.most))).sum()
    }

    /// The samples that Prometheus reads of a histogram, in seconds: how many took less than each power of two of nanoseconds, from a
    /// microsecond to 17 seconds. `labels` are those that each sample has, as `cache="users"`, or none. The sum is right as a quantile
    /// is. (What kind of metric it is, is said by whoever writes the name first: `# TYPE name histogram`.)
    ///
    /// ```
    /// use kilambosetry::Histogram;
    ///
    /// let mut times = Histogram::default();
    /// [900, 1500, 70_000_000_000].into_iter().for_each(|time| times.add(time));
    /// let text = times.to_prometheus("load_seconds", "");
    /// assert!(text.starts_with("load_seconds_bucket{le=\"0.000001023\"} 1\nload_seconds_bucket{le=\"0.000002047\"} 2\n"));
    /// assert!(text.contains("load_seconds_bucket{le=\"+Inf\"} 3\n") && text.ends_with("load_seconds_count 3\n"));
    /// ```
    #[must_use]
    pub fn to_prometheus(&self, name: &str, labels: &str) -> String {
        let (mut text, mut less, mut places) = (String::new(), 0, self.counts.iter());
        let comma = if labels.is_empty() { "" } else { "," };
        let mut before = 0;
        for power in LEAST_POWER..=MOST_POWER {
            let end = place(1 << power);
            less += places.by_ref().take(end - before).sum::<u64>();
            before = end;
            let most = ((1_u64 << power) - 1) as f64 / 1e9;
            let _ = writeln!(text, "{name}_bucket{{{labels}{comma}le=\"{most:.9}\"}} {less}");
        }
        let (own, sum) =
            (if labels.is_empty() { String::new() } else { format!("{{{labels}}}") }, self.sum() as f64 / 1e9);
        let _ = writeln!(text, "{name}_bucket{{{labels}{comma}le=\"+Inf\"}} {}", self.count);
        let _ = write!(text, "{name}_sum{own} {sum:.9}\n{name}_count{own} {}\n", self.count);
        text
    }
}

#[cfg(test)]
mod tests {
    use super::*;
    #[test]
    fn each_time_stands_in_its_place() {
        for time in (0..5000).chain((10..64).map(|bit| (1u64 << bit) + 7)).chain([u64::MAX]) {
            let place = place(time);
            assert!(place < PLACES && longest(place) >= time, "{time}");
            assert!(place == 0 || longest(place - 1) < time, "{time}");
        }
    }

    #[test]
    fn quantiles_are_those_of_the_sorted_times() {
        let mut seed = 1u64;
        let mut share = || {
            seed = seed.wrapping_mul(6_364_136_223_846_793_005).wrapping_add(1_442_695_040_888_963_407);
            (seed >> 11) as f64 / (1u64 << 53) as f64
        };
        let mut times: Vec<u64> = (0..10_000).map(|_| (share() * 20.0).exp() as u64).collect();
        let mut halves = [Histogram::default(), Histogram::default()];
        times.iter().enumerate().for_each(|(i, time)| halves[i % 2].add(*time));
        let [mut all, other] = halves;
        all.add_all(&other);
        times.sort_unstable();
        for share in [0.5, 0.9, 0.99, 0.999] {
            let exact = times[(times.len() as f64 * share).ceil() as usize - 1];
            let told = all.quantile(share);
            assert!(told >= exact && told as f64 <= exact as f64 * 1.04 + 1.0, "{share}: {told} and not {exact}");
        }
        assert_eq!((all.quantile(1.0), all.most(), all.count()), (times[9999], times[9999], 10_000));
        assert_eq!(Histogram::default().quantile(0.5), 0);
    }
    #[test]
    fn what_was_added_since_is_counted_alone() {
        let mut before = Histogram::default();
        before.add(5);
        let mut now = before.clone();
        (0..3).for_each(|_| now.add(1000));
        let since = now.since(&before);
        assert_eq!((since.count(), since.quantile(0.5), since.most()), (3, longest(place(1000)), longest(place(1000))));
        assert_eq!((before.since(&now).count(), before.since(&now).most()), (0, 0));
    }
}
