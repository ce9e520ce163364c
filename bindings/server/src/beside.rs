//! What the server itself knows of its items, and keeps beside them for the next one.

/// The bytes of it.
pub const LENGTH: usize = 20;

/// What `flush_all` ended, and the last unique.
#[derive(Clone, Copy, Debug, Default, PartialEq, Eq)]
pub struct Beside {
    /// Items of earlier changes were flushed.
    pub before: u64,
    /// The second in which all items end; 0: there is none.
    pub due: u32,
    /// The unique of the last change.
    pub last: u64,
}

impl Beside {
    #[must_use]
    pub fn bytes(&self) -> [u8; LENGTH] {
        let mut bytes = [0; LENGTH];
        bytes[..8].copy_from_slice(&self.before.to_le_bytes());
        bytes[8..12].copy_from_slice(&self.due.to_le_bytes());
        bytes[12..].copy_from_slice(&self.last.to_le_bytes());
        bytes
    }

    /// None: these bytes are no server's.
    #[must_use]
    pub fn read(bytes: &[u8]) -> Option<Beside> {
        let bytes: &[u8; LENGTH] = bytes.try_into().ok()?;
        let number = |from: usize| bytes[from..from + 8].iter().rfold(0, |number, byte| number << 8 | u64::from(*byte));
        let due = bytes[8..12].iter().rfold(0, |number, byte| number << 8 | u32::from(*byte));
        Some(Beside { before: number(0), due, last: number(12) })
    }
}

#[cfg(test)]
mod tests {
    use super::*;

    #[test]
    fn what_is_kept_is_read_again() {
        let beside = Beside { before: 0x0102_0304_0506_0708, due: 0xfffe_fdfc, last: u64::MAX - 1 };
        assert_eq!(Beside::read(&beside.bytes()), Some(beside));
        assert_eq!(Beside::read(&[]), None);
        assert_eq!(Beside::read(&[0; LENGTH + 1]), None);
    }
}
