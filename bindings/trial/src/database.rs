use std::sync::atomic::{AtomicU64, Ordering::SeqCst};
use std::sync::Arc;
use std::thread;
use std::time::Duration;

/// A connection to the database.
pub trait Database: Send {
    /// The row, as it is committed at some moment of the call.
    fn load(&mut self, row: usize) -> Vec<u8>;

    /// Commits a change of the row, and answers its version.
    fn change(&mut self, row: usize) -> u64;
}

/// As many connections as there are threads, to the database of this name.
pub fn open(name: &str, threads: u64, rows: usize) -> Option<Vec<Box<dyn Database>>> {
    match name {
        "slow" => {
            let versions: Arc<[AtomicU64]> = (0..rows).map(|_| AtomicU64::new(0)).collect();
            let slow = |_| Box::new(Slow { versions: Arc::clone(&versions), loads: 0 }) as Box<dyn Database>;
            Some((0..threads).map(slow).collect())
        }
        #[cfg(feature = "postgres")]
        "postgres" => Some(crate::postgres::open(threads, rows)),
        _ => None,
    }
}

/// The bytes of a row of this version: 116 to 1,515 of them, with the version at both ends.
pub fn value_of(row: usize, version: u64) -> Vec<u8> {
    let length = 116 + row.wrapping_mul(7919) % 1400;
    let mut value = Vec::with_capacity(length);
    value.extend((row as u64).to_be_bytes());
    value.extend(version.to_be_bytes());
    value.extend((16..length - 8).map(|at| (row + at) as u8 ^ version as u8));
    value.extend(version.to_be_bytes());
    value
}

/// The version of the row that these bytes say; none, where they are no version of it.
pub fn version_of(row: usize, value: &[u8]) -> Option<u64> {
    let version = u64::from_be_bytes(value.get(8..16)?.try_into().ok()?);
    (*value == value_of(row, version)).then_some(version)
}

/// A function that takes a millisecond, and now and then ten.
struct Slow {
    versions: Arc<[AtomicU64]>,
    loads: u64,
}

impl Database for Slow {
    fn load(&mut self, row: usize) -> Vec<u8> {
        self.loads += 1;
        let version = self.versions[row].load(SeqCst);
        thread::sleep(Duration::from_millis(if self.loads.is_multiple_of(100) { 10 } else { 1 }));
        value_of(row, version)
    }

    fn change(&mut self, row: usize) -> u64 {
        thread::sleep(Duration::from_millis(1));
        self.versions[row].fetch_add(1, SeqCst) + 1
    }
}
