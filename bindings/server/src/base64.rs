//! Keys in base64.

const DIGITS: &[u8; 64] = b"ABCDEFGHIJKLMNOPQRSTUVWXYZabcdefghijklmnopqrstuvwxyz0123456789+/";

fn value_of(digit: u8) -> Option<u32> {
    match digit {
        b'A'..=b'Z' => Some(u32::from(digit - b'A')),
        b'a'..=b'z' => Some(u32::from(digit - b'a') + 26),
        b'0'..=b'9' => Some(u32::from(digit - b'0') + 52),
        b'+' => Some(62),
        b'/' => Some(63),
        b'=' => Some(0),
        _ => None,
    }
}

/// The bytes that these digits stand for: one or more. As memcached does, it passes over what is no digit, and ends with the first
/// block that is filled up by `=`.
#[must_use]
pub fn decoded(text: &[u8]) -> Option<Vec<u8>> {
    let digits: Vec<u8> = text.iter().copied().filter(|digit| value_of(*digit).is_some()).collect();
    if digits.is_empty() || !digits.len().is_multiple_of(4) {
        return None;
    }
    let mut bytes = Vec::with_capacity(digits.len() / 4 * 3);
    for block in digits.chunks_exact(4) {
        let sum = block.iter().fold(0, |sum, digit| sum << 6 | value_of(*digit).unwrap_or(0));
        bytes.extend_from_slice(&sum.to_be_bytes()[1..]);
        match block.iter().filter(|digit| **digit == b'=').count() {
            0 => {}
            filled @ (1 | 2) => {
                bytes.truncate(bytes.len() - filled);
                break;
            }
            _ => return None,
        }
    }
    Some(bytes)
}

/// Writes the digits of these bytes.
pub fn encode(bytes: &[u8], out: &mut Vec<u8>) {
    for block in bytes.chunks(3) {
        let mut word = [0; 4];
        word[1..=block.len()].copy_from_slice(block);
        let word = u32::from_be_bytes(word);
        let digits = [18, 12, 6, 0].map(|shift| DIGITS[(word >> shift & 63) as usize]);
        out.extend_from_slice(&digits[..=block.len()]);
        out.extend_from_slice(&b"=="[..3 - block.len()]);
    }
}

#[cfg(test)]
mod tests {
    use super::*;

    #[test]
    fn bytes_come_back_from_their_digits() {
        for (bytes, text) in
            [(b"f".as_slice(), b"Zg==".as_slice()), (b"fo", b"Zm8="), (b"foo", b"Zm9v"), (b"\xff\xfe", b"//4=")]
        {
            let mut out = Vec::new();
            encode(bytes, &mut out);
            assert_eq!(out, text);
            assert_eq!(decoded(text).as_deref(), Some(bytes));
        }
    }

    #[test]
    fn what_is_no_base64_is_refused() {
        for text in [b"".as_slice(), b"Zg=", b"Z", b"====", b"A===", b"?!"] {
            assert_eq!(decoded(text), None);
        }
        assert_eq!(decoded(b"Zm-9v").as_deref(), Some(b"foo".as_slice()));
    }
}
