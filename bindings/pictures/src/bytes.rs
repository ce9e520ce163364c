//! Numbers of bytes, as one writes them.
use std::fmt;
use std::str::FromStr;

/// So many bytes. `64M` is 64,000,000 of them.
#[derive(Clone, Copy, Debug, Default, PartialEq, Eq, PartialOrd, Ord)]
pub struct Bytes(pub u64);

impl FromStr for Bytes {
    type Err = String;

    fn from_str(text: &str) -> Result<Bytes, String> {
        let wrong = || format!("{text} is no number of bytes: write 1500, 64M, 1.5G ..");
        let digits = text.trim_end_matches(['B', 'b']);
        let unit = match digits.chars().last() {
            Some('k' | 'K') => 1e3,
            Some('m' | 'M') => 1e6,
            Some('g' | 'G') => 1e9,
            Some('t' | 'T') => 1e12,
            _ => 1.0,
        };
        let digits = if unit > 1.0 { &digits[..digits.len() - 1] } else { digits };
        match digits.parse::<f64>() {
            Ok(number) if number >= 0.0 && number * unit < 9e15 => Ok(Bytes((number * unit).round() as u64)),
            _ => Err(wrong()),
        }
    }
}

impl fmt::Display for Bytes {
    fn fmt(&self, f: &mut fmt::Formatter<'_>) -> fmt::Result {
        let bytes = self.0 as f64;
        let text = match self.0 {
            0..=999 => format!("{bytes} B"),
            1_000..=999_999 => format!("{:.1} kB", bytes / 1e3),
            1_000_000..=999_999_999 => format!("{:.1} MB", bytes / 1e6),
            1_000_000_000..=999_999_999_999 => format!("{:.1} GB", bytes / 1e9),
            _ => format!("{:.1} TB", bytes / 1e12),
        };
        f.pad(&text)
    }
}

#[cfg(test)]
mod tests {
    use super::*;

    #[test]
    fn they_are_read_as_they_are_written() {
        for (text, bytes) in [("0", 0), ("1500", 1500), ("64M", 64_000_000), ("1.5G", 1_500_000_000), ("10kB", 10_000)]
        {
            assert_eq!(text.parse(), Ok(Bytes(bytes)), "{text}");
        }
        for text in ["", "M", "-1", "1X", "1e30", "nan", "infG"] {
            assert!(text.parse::<Bytes>().is_err(), "{text}");
        }
        assert_eq!(Bytes(64_000_000).to_string(), "64.0 MB");
    }
}
