//! The lengths of values.
use crate::random::{mixed, share_of};
use std::str::FromStr;

/// The longest value that the cache takes, in bytes.
pub const LONGEST_VALUE: usize = 1 << 20;

/// By which law values are long. Each key has one length.
#[derive(Clone, Debug, PartialEq)]
pub enum Sizes {
    /// One of these, each as likely as the others.
    List(Vec<usize>),
    /// Pareto's law: a share of (least / x)^shape is longer than x. What would be longer than `most` is `most`.
    Pareto { least: usize, shape: f64, most: usize },
}

impl Sizes {
    /// The length of the value of the key with this number.
    #[must_use]
    pub fn of(&self, key: u64, seed: u64) -> usize {
        let drawn = mixed(mixed(key) ^ seed.rotate_left(17));
        match self {
            Sizes::List(lengths) => lengths[((u128::from(drawn) * lengths.len() as u128) >> 64) as usize],
            Sizes::Pareto { least, shape, most } => {
                let length = *least as f64 * (1.0 - share_of(drawn)).powf(-1.0 / shape);
                (length as usize).clamp(*least, *most)
            }
        }
    }
}

impl FromStr for Sizes {
    type Err = String;

    /// `400`, `100,400,5000` or `pareto:LEAST:SHAPE:MOST`.
    fn from_str(text: &str) -> Result<Sizes, String> {
        let length = |word: &str| match word.trim().parse::<usize>() {
            Ok(length) if length <= LONGEST_VALUE => Ok(length),
            _ => Err(format!("{word} is no length of a value, which has 0 to {LONGEST_VALUE} bytes")),
        };
        let Some(law) = text.strip_prefix("pareto:") else {
            return text.split(',').map(length).collect::<Result<_, _>>().map(Sizes::List);
        };
        let words: Vec<&str> = law.split(':').collect();
        let [least, shape, most] = words[..] else { return Err("it is pareto:LEAST:SHAPE:MOST".to_string()) };
        let (least, most) = (length(least)?, length(most)?);
        match shape.parse::<f64>() {
            Ok(shape) if shape > 0.0 && shape.is_finite() && 0 < least && least <= most => {
                Ok(Sizes::Pareto { least, shape, most })
            }
            _ => Err("the least is 1 or more and no more than the most, and the shape above 0".to_string()),
        }
    }
}

#[cfg(test)]
mod tests {
    use super::*;

    #[test]
    fn a_key_keeps_its_length() {
        let sizes: Sizes = "10,20,30".parse().unwrap();
        let mut counts = [0; 4];
        for key in 0..30_000 {
            assert_eq!(sizes.of(key, 5), sizes.of(key, 5));
            counts[sizes.of(key, 5) / 10] += 1;
        }
        assert!(counts[1..].iter().all(|count| (9_500..10_500).contains(count)), "{counts:?}");
    }

    // Of Pareto's law with shape 2 a quarter is longer than twice the least, and the mean is twice the least.
    #[test]
    fn lengths_by_pareto_are_those_of_the_law() {
        let sizes: Sizes = "pareto:100:2:1000000".parse().unwrap();
        let lengths: Vec<usize> = (0..100_000).map(|key| sizes.of(key, 1)).collect();
        let long = lengths.iter().filter(|length| **length > 200).count();
        let mean = lengths.iter().sum::<usize>() / lengths.len();
        assert!((24_000..26_000).contains(&long) && (190..210).contains(&mean), "{long} {mean}");
    }

    #[test]
    fn nonsense_is_refused() {
        for text in ["", "x", "-1", "2000000", "pareto:1:2", "pareto:0:1:5", "pareto:9:1:5", "pareto:1:0:5", "1,,2"] {
            assert!(text.parse::<Sizes>().is_err(), "{text}");
        }
    }
}
