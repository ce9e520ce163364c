//! Seconds, and when items end.
use kilambosetry::Clock;
use std::sync::OnceLock;
use std::time::{SystemTime, UNIX_EPOCH};

/// A time that a client gives is from now on, up to so many seconds, and else a date.
const LONGEST_FROM_NOW: i32 = 60 * 60 * 24 * 30;

/// The second that it is, since 1970, by the cache's clock: that of the date as the server began, and those that have passed since. So
/// no time to live is moved where the date is set.
#[must_use]
pub fn now() -> u32 {
    static CLOCK: OnceLock<Clock> = OnceLock::new();
    let second = CLOCK.get_or_init(Clock::system).now();
    u32::try_from(second).unwrap_or(u32::MAX)
}

// The second of the date.
fn today() -> u32 {
    SystemTime::now().duration_since(UNIX_EPOCH).map_or(0, |time| u32::try_from(time.as_secs()).unwrap_or(u32::MAX))
}

/// When an item ends.
#[derive(Clone, Copy, Debug, Default, PartialEq, Eq)]
pub enum Expiry {
    /// Never.
    #[default]
    Never,
    /// As this second begins.
    At(u32),
}

impl Expiry {
    /// What a client's number means: 0 is never, a negative one is past, and the rest are seconds from now on, up to 30 days, or a
    /// date. A date is made seconds from now on as it comes in.
    #[must_use]
    pub fn of(number: i32, now: u32) -> Expiry {
        match number {
            0 => Expiry::Never,
            ..=-1 => Expiry::At(1),
            1..=LONGEST_FROM_NOW => Expiry::At(now.saturating_add(number.unsigned_abs())),
            date => Expiry::on(date.unsigned_abs(), today(), now),
        }
    }

    // As a second of the date begins.
    fn on(second: u32, today: u32, now: u32) -> Expiry {
        match second.checked_sub(today) {
            None | Some(0) => Expiry::At(1),
            Some(left) => Expiry::At(now.saturating_add(left)),
        }
    }

    #[must_use]
    pub fn is_past(self, now: u32) -> bool {
        matches!(self, Expiry::At(end) if end <= now)
    }

    /// The seconds that are left.
    #[must_use]
    pub fn left(self, now: u32) -> Option<u32> {
        match self {
            Expiry::Never => None,
            Expiry::At(end) => Some(end.saturating_sub(now)),
        }
    }

    /// Whether it ends before another does.
    #[must_use]
    pub fn is_before(self, other: Expiry) -> bool {
        matches!((self, other), (Expiry::At(end), Expiry::At(limit)) if end < limit)
    }
}

#[cfg(test)]
mod tests {
    use super::*;

    #[test]
    fn a_number_is_never_the_past_seconds_from_now_or_a_date() {
        assert_eq!(Expiry::of(0, 1000), Expiry::Never);
        assert!(Expiry::of(-1, 1000).is_past(1000));
        assert!(Expiry::of(i32::MIN, 1000).is_past(1000));
        assert_eq!(Expiry::of(5, 1000), Expiry::At(1005));
        assert_eq!(Expiry::of(2_592_000, 1000), Expiry::At(2_593_000));
        assert!(Expiry::of(2_592_001, 1000).is_past(1000), "a day of 1970");
        assert!(!Expiry::of(i32::MAX, 1000).is_past(1000));
        assert_eq!(Expiry::on(5_000_007, 5_000_000, 1000), Expiry::At(1007));
        assert!(Expiry::on(5_000_000, 5_000_000, 1000).is_past(1000));
    }

    #[test]
    fn an_item_ends_as_its_second_begins() {
        assert!(!Expiry::At(1001).is_past(1000));
        assert!(Expiry::At(1000).is_past(1000));
        assert!(!Expiry::Never.is_past(u32::MAX));
        assert_eq!(Expiry::At(1003).left(1000), Some(3));
        assert!(Expiry::At(1).is_before(Expiry::At(2)));
        assert!(!Expiry::Never.is_before(Expiry::At(2)) && !Expiry::At(1).is_before(Expiry::Never));
    }
}
