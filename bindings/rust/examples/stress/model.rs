//! What may be found under each key.
use std::ops::RangeInclusive;
use std::sync::atomic::{AtomicU64, Ordering::SeqCst};

/// A key whose value has versions, which rise.
pub struct Key {
    pub name: Vec<u8>,
    // no other key has it
    number: u64,
    // the newest version that may be found, the newest one that was answered, and the oldest one that a call may find which begins now
    newest: AtomicU64,
    answered: AtomicU64,
    oldest: AtomicU64,
}

impl Key {
    pub fn new(kind: &str, number: u64) -> Key {
        let mut name = format!("{kind}{number}").into_bytes();
        if number.is_multiple_of(7) {
            name.resize(255, b'x');
            name[253..].copy_from_slice(&(number as u16).to_be_bytes());
        }
        let number = number << 8 | u64::from(name[0]);
        Key { name, number, newest: AtomicU64::new(0), answered: AtomicU64::new(0), oldest: AtomicU64::new(0) }
    }

    /// The newest version.
    pub fn newest(&self) -> u64 {
        self.newest.load(SeqCst)
    }

    /// There is a next version from now on, which is answered.
    pub fn begin(&self) -> u64 {
        self.newest.fetch_add(1, SeqCst) + 1
    }

    /// The change to this version was answered: from now on no older one may be found.
    pub fn answered(&self, version: u64) {
        self.answered.fetch_max(version, SeqCst);
        self.oldest.fetch_max(version, SeqCst);
    }

    /// The newest version that was answered.
    pub fn newest_answered(&self) -> u64 {
        self.answered.load(SeqCst)
    }

    /// All was forgotten since this was the newest version that was answered: neither it nor an older one may be found.
    pub fn cleared(&self, answered: u64) {
        self.oldest.fetch_max(answered + 1, SeqCst);
    }

    /// The oldest version that a call may find which begins now.
    pub fn oldest(&self) -> u64 {
        self.oldest.load(SeqCst)
    }

    /// The value of this version, with so many bytes behind its head.
    pub fn value(&self, version: u64, length: u64) -> Vec<u8> {
        let mut value = [self.number.to_le_bytes(), version.to_le_bytes()].concat();
        let first = self.number.wrapping_mul(31).wrapping_add(version);
        value.extend((0..length).map(|at| first.wrapping_add(at) as u8));
        value
    }

    /// Judges a value that was found by a call which began when this was the oldest version that it might find.
    pub fn judge(&self, oldest: u64, value: &[u8]) {
        let word = |at: usize| u64::from_le_bytes(value[at..at + 8].try_into().expect("eight bytes"));
        assert!(value.len() >= 16 && word(0) == self.number, "{self}: another's value");
        let version = word(8);
        assert!(value == self.value(version, value.len() as u64 - 16), "{self}: no whole value");
        assert!(version >= oldest, "{self}: stale: version {version}, where {oldest} was answered before");
        assert!(version <= self.newest(), "{self}: version {version} was never stored");
    }

    /// Judges that there was said to be no such row: one of the versions that might be found has none.
    pub fn judge_absent(&self, oldest: u64) {
        let mut may_be: RangeInclusive<u64> = oldest..=self.newest();
        assert!(may_be.any(is_absent), "{self}: no version since {oldest} says that there is none");
    }
}

/// Whether the database has no such row at this version.
pub fn is_absent(version: u64) -> bool {
    version % 4 == 3
}

impl std::fmt::Display for Key {
    fn fmt(&self, f: &mut std::fmt::Formatter<'_>) -> std::fmt::Result {
        write!(f, "key {}", self.name.escape_ascii())
    }
}
