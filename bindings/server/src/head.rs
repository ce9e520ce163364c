//! What the cache holds under a key: a head of 21 bytes, and the client's value behind it.
use crate::moments::Expiry;
use bytes::{Buf, BufMut};

/// The bytes of a head.
pub const HEAD: usize = 21;
/// The longest value of a client: the cache's, without the head.
pub const LONGEST_VALUE: usize = (1 << 20) - HEAD;

const STALE: u8 = 1;
const WON: u8 = 2;
const FETCHED: u8 = 4;
const BINARY: u8 = 8;

/// What is known of an item beside its key and value.
#[derive(Clone, Copy, Debug, Default, PartialEq, Eq)]
pub struct Head {
    /// The number of the change that stored it: memcached's cas unique.
    pub unique: u64,
    pub expiry: Expiry,
    /// The second in which it was stored, or in which a command that writes such things found it last.
    pub used: u32,
    /// The client's own number.
    pub flags: u32,
    pub marks: Marks,
}

/// What meta commands mark an item with.
#[derive(Clone, Copy, Debug, Default, PartialEq, Eq)]
pub struct Marks {
    /// It was invalidated: whoever wins is to store it anew.
    pub is_stale: bool,
    /// A client was told that it has won.
    pub is_won: bool,
    /// A command that writes such things has found it.
    pub is_fetched: bool,
    /// Its key came in base64.
    pub is_binary: bool,
}

impl Marks {
    fn of(byte: u8) -> Marks {
        let has = |mark| byte & mark != 0;
        Marks { is_stale: has(STALE), is_won: has(WON), is_fetched: has(FETCHED), is_binary: has(BINARY) }
    }

    fn byte(self) -> u8 {
        let marks = [(self.is_stale, STALE), (self.is_won, WON), (self.is_fetched, FETCHED), (self.is_binary, BINARY)];
        marks.iter().filter(|(is_set, _)| *is_set).map(|(_, mark)| mark).sum()
    }
}

impl Head {
    /// The head that these bytes begin with.
    fn read(mut bytes: &[u8]) -> Option<Head> {
        if bytes.len() < HEAD {
            return None;
        }
        let unique = bytes.get_u64();
        let expiry = match bytes.get_u32() {
            0 => Expiry::Never,
            second => Expiry::At(second),
        };
        let (used, flags) = (bytes.get_u32(), bytes.get_u32());
        Some(Head { unique, expiry, used, flags, marks: Marks::of(bytes.get_u8()) })
    }

    fn write(&self, mut out: &mut [u8]) {
        out.put_u64(self.unique);
        out.put_u32(match self.expiry {
            Expiry::Never => 0,
            Expiry::At(second) => second.max(1),
        });
        out.put_u32(self.used);
        out.put_u32(self.flags);
        out.put_u8(self.marks.byte());
    }
}

/// An item: its head, and the bytes that the cache holds.
#[derive(Clone, Debug, PartialEq, Eq)]
pub struct Item {
    pub head: Head,
    bytes: Vec<u8>,
}

impl Item {
    /// An item; none, where there is no memory for it.
    #[must_use]
    pub fn new(head: Head, value: &[u8]) -> Option<Item> {
        Item::joined(head, value, &[])
    }

    /// An item whose value is two pieces.
    #[must_use]
    pub fn joined(head: Head, first: &[u8], second: &[u8]) -> Option<Item> {
        let mut bytes = Vec::new();
        bytes.try_reserve_exact(HEAD + first.len() + second.len()).ok()?;
        bytes.resize(HEAD, 0);
        bytes.extend_from_slice(first);
        bytes.extend_from_slice(second);
        Some(Item { head, bytes })
    }

    /// The item that the cache holds as these bytes.
    #[must_use]
    pub fn read(bytes: Vec<u8>) -> Option<Item> {
        Head::read(&bytes).map(|head| Item { head, bytes })
    }

    /// The client's value.
    #[must_use]
    pub fn value(&self) -> &[u8] {
        &self.bytes[HEAD..]
    }

    /// The bytes for the cache, with the head as it is now.
    pub fn to_store(&mut self) -> &[u8] {
        self.head.write(&mut self.bytes[..HEAD]);
        &self.bytes
    }
}

#[cfg(test)]
mod tests {
    use super::*;

    #[test]
    fn an_item_is_read_as_it_was_written() {
        for mark in 0..16 {
            let marks = Marks::of(mark);
            assert_eq!(marks.byte(), mark);
            let head = Head { unique: u64::MAX - 3, expiry: Expiry::At(77), used: 5, flags: u32::MAX, marks };
            let mut item = Item::joined(head, b"one", b" two").unwrap();
            assert_eq!(item.value(), b"one two");
            let stored = item.to_store().to_vec();
            assert_eq!(Item::read(stored).unwrap(), item);
        }
        let mut forever = Item::new(Head::default(), b"").unwrap();
        let again = Item::read(forever.to_store().to_vec()).unwrap();
        assert_eq!(again.head.expiry, Expiry::Never);
        assert_eq!(Item::read(vec![0; HEAD - 1]), None);
    }
}
