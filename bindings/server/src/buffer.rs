//! The bytes of a client that aren't used yet.
use std::collections::TryReserveError;

/// Bytes that have come, of which the first may be used up. More of them take memory only where there is some.
#[derive(Debug, Default)]
pub struct Buffer {
    bytes: Vec<u8>,
    used: usize,
}

impl Buffer {
    /// What isn't used up.
    #[must_use]
    pub fn bytes(&self) -> &[u8] {
        &self.bytes[self.used..]
    }

    #[must_use]
    pub fn len(&self) -> usize {
        self.bytes.len() - self.used
    }

    #[must_use]
    pub fn is_empty(&self) -> bool {
        self.len() == 0
    }

    #[must_use]
    pub fn capacity(&self) -> usize {
        self.bytes.capacity()
    }

    /// Uses the first of them up.
    pub fn advance(&mut self, count: usize) {
        self.used += count;
        if self.is_empty() {
            self.clear();
        }
    }

    pub fn clear(&mut self) {
        self.bytes.clear();
        self.used = 0;
    }

    /// How many more come without more memory.
    #[must_use]
    pub fn room(&self) -> usize {
        self.bytes.capacity() - self.bytes.len()
    }

    /// Makes room of what is used up.
    pub fn compact(&mut self) {
        self.bytes.drain(..self.used);
        self.used = 0;
    }

    /// Makes room for so many more. Refused, where there is no memory for them.
    pub fn try_reserve(&mut self, more: usize) -> Result<(), TryReserveError> {
        self.bytes.try_reserve_exact(more)
    }

    /// Where more of them are put, behind the others.
    pub fn end(&mut self) -> &mut Vec<u8> {
        &mut self.bytes
    }
}

#[cfg(test)]
mod tests {
    use super::*;

    #[test]
    fn room_is_made_of_what_is_used_up() {
        let mut buffer = Buffer::default();
        buffer.try_reserve(8).unwrap();
        let capacity = buffer.capacity();
        buffer.end().extend_from_slice(b"12345678");
        buffer.advance(5);
        assert_eq!((buffer.bytes(), buffer.room()), (b"678".as_slice(), capacity - 8));
        buffer.compact();
        assert_eq!((buffer.bytes(), buffer.room()), (b"678".as_slice(), capacity - 3));
        buffer.try_reserve(capacity - 3).unwrap();
        assert_eq!(buffer.capacity(), capacity);
        assert!(buffer.try_reserve(usize::MAX / 4).is_err());
        assert_eq!(buffer.bytes(), b"678");
        buffer.advance(3);
        assert!(buffer.is_empty() && buffer.room() == capacity);
    }
}
