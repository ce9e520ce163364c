//! An axis of a picture: where a number stands on it, and which numbers are written beside it.
use crate::bytes::Bytes;

/// What the numbers are.
#[derive(Clone, Copy, Debug, PartialEq, Eq)]
pub enum Unit {
    /// Shares, from 0 to 1.
    Share,
    Bytes,
    Nanoseconds,
    Seconds,
    /// Minutes, from so many ago, which are 0, up to now.
    MinutesAgo(u32),
    Number,
    /// The places of names, from 0 on.
    Names(&'static [&'static str]),
}

#[derive(Clone, Debug)]
pub struct Axis {
    pub name: String,
    pub unit: Unit,
    /// Equal steps are equal factors.
    pub is_log: bool,
}

/// An axis over the numbers that stand on it.
#[derive(Clone, Debug)]
pub struct Scale<'a> {
    axis: &'a Axis,
    least: f64,
    most: f64,
}

impl Axis {
    #[must_use]
    pub fn new(name: &str, unit: Unit, is_log: bool) -> Axis {
        Axis { name: name.to_string(), unit, is_log }
    }

    /// Over these numbers. One that isn't of factors begins at 0.
    #[must_use]
    pub fn over(&self, numbers: impl Iterator<Item = f64> + Clone) -> Scale<'_> {
        let least = numbers.clone().filter(|number| !self.is_log || *number > 0.0).fold(f64::MAX, f64::min);
        let most = numbers.fold(0.0, f64::max);
        let (mut least, mut most) = match self.is_log {
            true if least <= most => (least, most),
            true => (1.0, 10.0),
            false => (0.0, most),
        };
        match self.unit {
            Unit::Share => most = 1.0,
            Unit::MinutesAgo(span) => (least, most) = (0.0, f64::from(span)),
            _ => {}
        }
        if most <= least {
            (least, most) = if self.is_log { (least / 2.0, most * 2.0) } else { (least, least + 1.0) };
        }
        Scale { axis: self, least, most }
    }

    /// A number, as it is written beside the axis.
    #[must_use]
    pub fn written(&self, number: f64) -> String {
        match self.unit {
            Unit::Share => format!("{:.0} %", number * 100.0),
            Unit::Bytes => Bytes(number.round() as u64).to_string().replace(".0 ", " "),
            Unit::Nanoseconds if number < 1e3 => format!("{number} ns"),
            Unit::Nanoseconds if number < 1e6 => format!("{} µs", number / 1e3),
            Unit::Nanoseconds if number < 1e9 => format!("{} ms", number / 1e6),
            Unit::Nanoseconds => format!("{} s", number / 1e9),
            Unit::Seconds => format!("{number} s"),
            Unit::MinutesAgo(span) => format!("{}", f64::from(span) - number),
            Unit::Number => thousands(number),
            Unit::Names(names) => names.get(number as usize).unwrap_or(&"").to_string(),
        }
    }
}

fn thousands(number: f64) -> String {
    match number {
        _ if number >= 1e6 => format!("{} M", number / 1e6),
        _ if number >= 1e3 => format!("{} k", number / 1e3),
        _ => number.to_string(),
    }
}

// Numbers beside an axis, at most.
const MOST: f64 = 6.0;

impl Scale<'_> {
    /// Where the number stands: from 0 to 1.
    #[must_use]
    pub fn place(&self, number: f64) -> f64 {
        let place = match self.axis.is_log {
            true => (number.max(self.least) / self.least).ln() / (self.most / self.least).ln(),
            false => (number - self.least) / (self.most - self.least),
        };
        place.clamp(0.0, 1.0)
    }

    /// The numbers that are written beside it.
    #[must_use]
    pub fn marks(&self) -> Vec<f64> {
        match self.axis.unit {
            Unit::Names(names) => (0..names.len()).map(|place| place as f64).collect(),
            _ if self.axis.is_log => self.factors(),
            _ => self.steps(),
        }
    }

    // Powers of ten, with two or five times as much where there are few.
    fn factors(&self) -> Vec<f64> {
        let (first, last) = (self.least.log10().floor() as i32, self.most.log10().ceil() as i32);
        let powers: Vec<f64> = (first..=last).map(|power| 10f64.powi(power)).collect();
        let within = |number: &f64| (self.least * 0.999..=self.most * 1.001).contains(number);
        let by = |times: &[f64]| -> Vec<f64> {
            powers.iter().flat_map(|power| times.iter().map(move |times| power * times)).filter(within).collect()
        };
        let marks = [by(&[1.0, 2.0, 5.0]), by(&[1.0, 3.0]), by(&[1.0])];
        let few = marks.iter().find(|marks| marks.len() as f64 <= MOST);
        few.cloned().unwrap_or_else(|| marks[2].iter().copied().step_by(2).collect())
    }

    fn steps(&self) -> Vec<f64> {
        let wide = self.most - self.least;
        let power = 10f64.powf((wide / MOST).log10().ceil());
        let step = [0.2, 0.5, 1.0].map(|times| times * power).into_iter().find(|step| wide / step <= MOST);
        let step = step.unwrap_or(power);
        (0..=(wide / step * 1.001) as u32)
            .map(|i| (self.least + f64::from(i) * step) * 1e9)
            .map(|it| it.round() / 1e9)
            .collect()
    }
}

#[cfg(test)]
mod tests {
    use super::*;

    fn marks(unit: Unit, is_log: bool, numbers: &[f64]) -> Vec<String> {
        let axis = Axis::new("it", unit, is_log);
        let scale = axis.over(numbers.iter().copied());
        scale.marks().into_iter().map(|mark| axis.written(mark)).collect()
    }

    #[test]
    fn marks_are_round_numbers() {
        assert_eq!(marks(Unit::Share, false, &[0.3, 0.5]), ["0 %", "20 %", "40 %", "60 %", "80 %", "100 %"]);
        assert_eq!(marks(Unit::Bytes, true, &[1e6, 2e7]), ["1 MB", "2 MB", "5 MB", "10 MB", "20 MB"]);
        assert_eq!(marks(Unit::Nanoseconds, true, &[900.0, 3e7]), ["1 µs", "10 µs", "100 µs", "1 ms", "10 ms"]);
        assert_eq!(marks(Unit::Seconds, false, &[0.0, 1.1]), ["0 s", "0.2 s", "0.4 s", "0.6 s", "0.8 s", "1 s"]);
        assert_eq!(marks(Unit::MinutesAgo(60), false, &[59.0]), ["60", "50", "40", "30", "20", "10", "0"]);
        assert_eq!(marks(Unit::Number, false, &[30_000.0]), ["0", "5 k", "10 k", "15 k", "20 k", "25 k", "30 k"][..7]);
    }

    #[test]
    fn one_number_and_none_have_a_place_too() {
        for numbers in [&[5.0][..], &[0.0], &[]] {
            for is_log in [false, true] {
                let axis = Axis::new("it", Unit::Number, is_log);
                let scale = axis.over(numbers.iter().copied());
                assert!((0.0..=1.0).contains(&scale.place(5.0)) && !scale.marks().is_empty(), "{numbers:?} {is_log}");
            }
        }
    }
}
