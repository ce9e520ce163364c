//! What commands make of an item, under the lock of its key.
use crate::counters::Counters;
use crate::head::{Head, Item, Marks, LONGEST_VALUE};
use crate::items::{Change, NotKept};
use crate::moments::{self, Expiry};
use crate::parse::unsigned64;
use crate::request::{Direction, How, Store};

/// What became of a value that was to be stored.
#[derive(Clone, Copy, Debug, PartialEq, Eq)]
pub enum Stored {
    /// It is stored, as the change of this unique.
    Yes(u64),
    No,
    /// The item has another unique.
    Exists,
    /// There is no item whose unique it could be.
    NotFound,
}

/// What only meta commands ask of a store.
#[derive(Clone, Copy, Debug, Default)]
pub struct Beside {
    /// The key came in base64.
    pub is_binary: bool,
    /// A value that was loaded before a change of the item is stored, and marked as stale.
    pub takes_stale: bool,
}

/// Stores a value as it is asked for.
pub async fn store(
    change: &Change<'_>,
    asked: &Store<'_>,
    beside: Beside,
    value: &[u8],
    counters: &Counters,
) -> Result<Stored, NotKept> {
    counters.cmd_set.one();
    let marks = Marks { is_binary: beside.is_binary, ..Marks::default() };
    let head = || Head { marks, ..change.new_head(asked.flags, Expiry::of(asked.time, moments::now())) };
    let before = if asked.how == How::Set { None } else { change.find().await };
    let stored = match (asked.how, before) {
        (How::Set, _) | (How::Add, None) | (How::Replace, Some(_)) => Item::new(head(), value),
        (How::CompareAndSet, Some(_)) if change.is_barred() => {
            counters.leases_refused.one();
            return Ok(Stored::Exists);
        }
        (How::CompareAndSet, Some(before)) => match compared(asked, beside, &before.head, head(), counters) {
            Some(head) => Item::new(head, value),
            None => return Ok(Stored::Exists),
        },
        (How::CompareAndSet, None) => {
            counters.cas_misses.one();
            counters.leases_refused.one();
            return Ok(Stored::NotFound);
        }
        (How::Append | How::Prepend, Some(before)) if is_other(asked, &before.head) => return Ok(Stored::Exists),
        (How::Append | How::Prepend, Some(before)) if before.value().len() + value.len() > LONGEST_VALUE => {
            return Ok(Stored::No);
        }
        (How::Append | How::Prepend, Some(before)) => joined(change, asked.how, &before, value),
        (How::Add, Some(_)) | (How::Replace | How::Append | How::Prepend, None) => return Ok(Stored::No),
    };
    put(change, stored).await
}

// (where there is no memory for the item, the key loses what it had, as where there is none for it in the cache)
async fn put(change: &Change<'_>, item: Option<Item>) -> Result<Stored, NotKept> {
    let Some(mut item) = item else {
        change.remove().await?;
        return Err(NotKept::NoMemory);
    };
    let unique = item.head.unique;
    change.store(&mut item).await.map(|()| Stored::Yes(unique))
}

fn is_other(asked: &Store<'_>, before: &Head) -> bool {
    asked.unique != 0 && asked.unique != before.unique
}

// The head to be stored over another, where the unique that is given allows it.
fn compared(asked: &Store<'_>, beside: Beside, before: &Head, head: Head, counters: &Counters) -> Option<Head> {
    let is_same = asked.unique != 0 && asked.unique == before.unique;
    let is_older = beside.takes_stale && asked.unique != 0 && asked.unique < before.unique;
    if !is_same && !is_older {
        counters.cas_badval.one();
        counters.leases_refused.one();
        return None;
    }
    counters.cas_hits.one();
    let marks = Marks { is_stale: true, is_won: before.marks.is_won, ..head.marks };
    Some(if is_same { head } else { Head { expiry: before.expiry, marks, ..head } })
}

// The item with the value behind or before its own.
fn joined(change: &Change<'_>, how: How, before: &Item, value: &[u8]) -> Option<Item> {
    let head = Head { unique: change.unique(), used: moments::now(), ..before.head };
    match how {
        How::Prepend => Item::joined(head, value, before.value()),
        _ => Item::joined(head, before.value(), value),
    }
}

/// What counting came to. The item isn't stored yet.
#[derive(Clone, Debug, PartialEq, Eq)]
pub enum Counted {
    Now {
        value: u64,
        item: Item,
    },
    NotFound,
    /// The item has another unique.
    Exists,
    NotANumber,
    NoMemory,
}

/// Counts the number under the key up or down. A unique other than 0 must be the item's.
pub async fn count(change: &Change<'_>, direction: Direction, delta: u64, unique: u64, counters: &Counters) -> Counted {
    let Some(before) = change.find().await else { return Counted::NotFound };
    if before.value().is_empty() {
        return Counted::NotANumber;
    }
    if unique != 0 && unique != before.head.unique {
        return Counted::Exists;
    }
    let Some(value) = unsigned64(before.value()) else { return Counted::NotANumber };
    let value = match direction {
        Direction::Up => value.wrapping_add(delta),
        Direction::Down => value.saturating_sub(delta),
    };
    match direction {
        Direction::Up => counters.incr_hits.one(),
        Direction::Down => counters.decr_hits.one(),
    }
    let head = Head { unique: change.unique(), ..before.head };
    match padded(head, value, before.value().len()) {
        Some(item) => Counted::Now { value, item },
        None => Counted::NoMemory,
    }
}

// An item of the number's digits. As memcached does, a number that has lost digits keeps its length, by spaces.
fn padded(head: Head, value: u64, length: usize) -> Option<Item> {
    let mut digits = itoa::Buffer::new();
    let digits = digits.format(value).as_bytes();
    let mut spaces = Vec::new();
    let missing = length.saturating_sub(digits.len());
    spaces.try_reserve_exact(missing).ok()?;
    spaces.resize(missing, b' ');
    Item::joined(head, digits, &spaces)
}

#[cfg(test)]
mod tests {
    use super::*;

    #[test]
    fn a_number_that_loses_digits_keeps_its_length() {
        let value = |number, length| padded(Head::default(), number, length).unwrap().value().to_vec();
        assert_eq!(value(9, 2), b"9 ");
        assert_eq!(value(100, 2), b"100");
    }
}
