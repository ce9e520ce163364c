use kilambosetry::Error;
use std::panic::{catch_unwind, AssertUnwindSafe};

// What calls answer, as the two headers have it. (Refusals know their numbers.)
pub const DONE: u8 = 0;
pub const EXISTS: u8 = 17;
pub const BAD_NUMBER: u8 = 64;
pub const IN_USE: u8 = 65;
pub const NOT_OURS: u8 = 66;
pub const OTHER_KIND: u8 = 67;
pub const TOO_SMALL: u8 = 68;
pub const SYSTEM: u8 = 69;
pub const CLOSED: u8 = 70;
pub const FAULT: u8 = 71;
pub const NO_SEAL: u8 = 72;
pub const MISS: u8 = 100;
pub const EMPTY: u8 = 101;
pub const SHORT: u8 = 102;
pub const WAITS: u8 = 103;
pub const STALE: u8 = 106;
pub const TIMED_OUT: u8 = 120;
pub const LEASED: u8 = 121;
pub const LOAD_FAILED: u8 = 122;
pub const ABSENT: u8 = 123;

/// What the work answers. A panic ends here.
pub fn answered(work: impl FnOnce() -> Result<u8, Error>) -> u8 {
    let answer = catch_unwind(AssertUnwindSafe(work));
    answer.map_or(FAULT, |answer| answer.unwrap_or_else(of_error))
}

fn of_error(error: Error) -> u8 {
    match error {
        Error::Refused(refused) => refused.number(),
        Error::TimedOut => TIMED_OUT,
        _ => CLOSED,
    }
}

/// The first of these two where it is so, or else the second.
pub fn either(is_so: bool, first: u8, second: u8) -> u8 {
    if is_so {
        first
    } else {
        second
    }
}

#[cfg(test)]
mod tests {
    use super::*;
    use kilambosetry::Refused;

    #[test]
    fn a_panic_is_a_status() {
        assert_eq!(answered(|| panic!("a fault")), FAULT);
        assert_eq!(answered(|| Err(Error::Refused(Refused::NO_MEMORY))), 22);
        assert_eq!(answered(|| Err(Error::TimedOut)), TIMED_OUT);
        assert_eq!(answered(|| Ok(MISS)), MISS);
    }
}
