//! Lines of the protocol: where they end, their words, and numbers as memcached reads them.
use memchr::memchr;

/// The longest key.
pub const LONGEST_KEY: usize = 250;
/// The most words of a line that count, but for lists of keys.
pub const MOST_WORDS: usize = 23;
/// A line whose end hasn't come within so many bytes ends the connection, but for a list of keys.
pub const LONGEST_LINE: usize = 2048;
/// The same of a list of keys.
pub const LONGEST_LIST: usize = 1 << 20;

/// What is at the head of the bytes that were received.
#[derive(Debug, PartialEq, Eq)]
pub enum Received<'a> {
    /// A line without its end, and the bytes that it takes with it.
    Line(&'a [u8], usize),
    /// Its end hasn't come yet.
    Part,
    /// Its end hasn't come, and it is too long.
    TooLong,
}

/// Looks for the line at the head of these bytes, of which the first have no newline: so many were looked through before. It ends
/// with a newline, before which a carriage return may stand.
#[must_use]
pub fn line_of(bytes: &[u8], looked_through: usize) -> Received<'_> {
    let (_, new) = bytes.split_at(looked_through.min(bytes.len()));
    let Some(newline) = memchr(b'\n', new).map(|at| bytes.len() - new.len() + at) else {
        let is_list = bytes.trim_ascii_start().starts_with(b"get ") || bytes.trim_ascii_start().starts_with(b"gets ");
        let most = if is_list { LONGEST_LIST } else { LONGEST_LINE };
        return if bytes.len() > most { Received::TooLong } else { Received::Part };
    };
    let line = &bytes[..newline];
    let line = line.strip_suffix(b"\r").filter(|_| newline > 1).unwrap_or(line);
    // (memcached's lines end at a zero)
    let line = memchr(0, line).map_or(line, |zero| &line[..zero]);
    Received::Line(line, newline + 1)
}

/// The words of a line: what stands between spaces.
pub fn words_of(line: &[u8]) -> impl Iterator<Item = &[u8]> + Clone {
    line.split(|byte| *byte == b' ').filter(|word| !word.is_empty())
}

/// The first words of a line.
#[derive(Clone, Copy, Debug)]
pub struct Words<'a> {
    words: [&'a [u8]; MOST_WORDS],
    count: usize,
}

impl<'a> Words<'a> {
    #[must_use]
    pub fn of(line: &'a [u8]) -> Words<'a> {
        let mut words = Words { words: [b""; MOST_WORDS], count: 0 };
        for word in words_of(line).take(MOST_WORDS) {
            words.words[words.count] = word;
            words.count += 1;
        }
        words
    }

    #[must_use]
    pub fn all(&self) -> &[&'a [u8]] {
        &self.words[..self.count]
    }
}

// A number as C's `strtoull` reads it: whitespace, a sign, and digits, up to the end or more whitespace.
fn number_of(bytes: &[u8]) -> Option<(bool, u64)> {
    let bytes = bytes.trim_ascii_start();
    let (is_negative, digits) = match bytes.split_first()? {
        (b'-', digits) => (true, digits),
        (b'+', digits) => (false, digits),
        _ => (false, bytes),
    };
    let length = digits.iter().position(|byte| !byte.is_ascii_digit()).unwrap_or(digits.len());
    let (digits, rest) = digits.split_at(length);
    if digits.is_empty() || rest.first().is_some_and(|byte| !is_space(*byte)) {
        return None;
    }
    let add = |sum: u64, digit: &u8| sum.checked_mul(10)?.checked_add(u64::from(digit - b'0'));
    digits.iter().try_fold(0, add).map(|magnitude| (is_negative, magnitude))
}

fn is_space(byte: u8) -> bool {
    byte.is_ascii_whitespace() || byte == 0x0b
}

/// A number of 64 bits without a sign.
#[must_use]
pub fn unsigned64(bytes: &[u8]) -> Option<u64> {
    match number_of(bytes)? {
        (true, 1..) => None,
        (_, magnitude) => Some(magnitude),
    }
}

/// A number of 32 bits without a sign.
#[must_use]
pub fn unsigned32(bytes: &[u8]) -> Option<u32> {
    u32::try_from(unsigned64(bytes)?).ok()
}

/// A number of 32 bits with a sign.
#[must_use]
pub fn signed32(bytes: &[u8]) -> Option<i32> {
    let (is_negative, magnitude) = number_of(bytes)?;
    let magnitude = i64::try_from(magnitude).ok()?;
    i32::try_from(if is_negative { -magnitude } else { magnitude }).ok()
}

/// The length of a value: 0 and more.
#[must_use]
pub fn length_of(bytes: &[u8]) -> Option<usize> {
    signed32(bytes).filter(|length| *length <= i32::MAX - 2).and_then(|length| usize::try_from(length).ok())
}

#[cfg(test)]
mod tests {
    use super::*;

    #[test]
    fn a_line_ends_with_a_newline() {
        assert_eq!(line_of(b"get a\r\nget b", 0), Received::Line(b"get a", 7));
        assert_eq!(line_of(b"get a\nget b", 0), Received::Line(b"get a", 6));
        assert_eq!(line_of(b"get a\r", 0), Received::Part);
        assert_eq!(line_of(b"", 0), Received::Part);
        assert_eq!(line_of(b"\n", 0), Received::Line(b"", 1));
        assert_eq!(line_of(b"a\0b\r\n", 0), Received::Line(b"a", 5));
        // where the first were looked through before
        assert_eq!(line_of(b"get a\r\nget b", 6), Received::Line(b"get a", 7));
        assert_eq!(line_of(b"get a\r", 6), Received::Part);
        assert_eq!(line_of(b"get a\r\nget b\r\n", 7), Received::Line(b"get a\r\nget b", 14));
    }

    #[test]
    fn a_line_that_does_not_end_is_too_long_but_for_a_list_of_keys() {
        let long = vec![b'a'; LONGEST_LINE];
        assert_eq!(line_of(&long, 0), Received::Part);
        assert_eq!(line_of(&vec![b'a'; LONGEST_LINE + 1], 0), Received::TooLong);
        let mut list = b"gets ".to_vec();
        list.resize(LONGEST_LIST, b'a');
        assert_eq!(line_of(&list, 0), Received::Part);
        list.push(b'a');
        assert_eq!(line_of(&list, 0), Received::TooLong);
        let mut whole = vec![b'a'; LONGEST_LINE * 2];
        whole.push(b'\n');
        assert!(matches!(line_of(&whole, 0), Received::Line(..)));
    }

    #[test]
    fn words_stand_between_spaces() {
        assert_eq!(Words::of(b"  get  a b ").all(), [b"get".as_slice(), b"a", b"b"]);
        assert!(Words::of(b"   ").all().is_empty());
        let many = b"k ".repeat(40);
        assert_eq!(Words::of(&many).all().len(), MOST_WORDS);
        assert_eq!(words_of(&many).count(), 40);
    }

    #[test]
    fn numbers_are_read_as_memcached_reads_them() {
        assert_eq!(unsigned64(b"18446744073709551615"), Some(u64::MAX));
        assert_eq!(unsigned64(b"18446744073709551616"), None);
        assert_eq!(unsigned64(b" 12 "), Some(12));
        assert_eq!(unsigned64(b"12 apples"), Some(12));
        for bad in [b"".as_slice(), b"-", b"12a", b"a", b"-1", b"0x10", b"+"] {
            assert_eq!(unsigned64(bad), None, "{}", bad.escape_ascii());
        }
        assert_eq!(unsigned32(b"4294967295"), Some(u32::MAX));
        assert_eq!(unsigned32(b"4294967296"), None);
        assert_eq!(signed32(b"-2147483648"), Some(i32::MIN));
        assert_eq!(signed32(b"2147483648"), None);
        assert_eq!(signed32(b"+7"), Some(7));
        assert_eq!(length_of(b"-1"), None);
        assert_eq!(length_of(b"2147483646"), None);
        assert_eq!(length_of(b"1048576"), Some(1_048_576));
    }
}
