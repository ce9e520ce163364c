use crate::digest::digest_of;
use crate::image::Seal;
use crate::times::{Clocked, Kind};
use crate::Refused;
use std::alloc::{self, Layout};
use std::fmt;
use std::io;
use std::ops::AddAssign;
use std::panic::{self, AssertUnwindSafe};
use std::ptr;
use std::sync::atomic::{AtomicU64, Ordering::Relaxed};
use std::time::Instant;

/// A device of pages that threads share. An error says that nothing was read, or that nothing is known any more of the page
/// that was to be written. A page that is written is in no other operation at that time; two threads may read one at once.
///
/// A [`HybridCache`](crate::HybridCache) keeps a digest of each page as it was last written: a page that comes back otherwise
/// counts as one that wasn't read. A call that panics has failed.
pub trait PageDevice: Send + Sync {
    /// Reads the page into `out`, which has its length.
    fn read(&self, page: u32, out: &mut [u8]) -> io::Result<()>;
    /// Writes the page.
    fn write(&self, page: u32, bytes: &[u8]) -> io::Result<()>;
    /// Reads the page into `out` where nobody has to wait for it, as where the system has a copy of it in memory. `None`: it must
    /// be waited for, and is to be read by `read`. A get that may not hold its thread up asks this first.
    fn read_now(&self, page: u32, out: &mut [u8]) -> Option<io::Result<()>> {
        let _ = (page, out);
        None
    }
    /// The seal that the device has, by which a cache that is opened knows what an earlier one kept ([`Keep`](crate::Keep)): zeros for
    /// none. An error says that it can have none, and a cache over it keeps nothing.
    fn seal(&self) -> io::Result<[u8; 16]> {
        Err(io::ErrorKind::Unsupported.into())
    }
    /// Puts this seal there, for good, once all pages that were written are there for good; or, as zeros, takes it away. It answers
    /// once that is so, also where the machine fails. A device must not say so before: else what is found may be stale.
    fn put_seal(&self, seal: [u8; 16]) -> io::Result<()> {
        let _ = seal;
        Err(io::ErrorKind::Unsupported.into())
    }
}

/// Operations of a device.
#[derive(Clone, Copy, Debug, Default, PartialEq, Eq)]
#[non_exhaustive]
pub struct DeviceCounts {
    /// Pages that were read, or tried.
    pub reads: u64,
    /// Pages that were written, or tried.
    pub writes: u64,
    /// Reads that failed: the device said so, the page was never written or its write had failed, or it was a lie.
    pub read_failures: u64,
    /// Writes that failed.
    pub write_failures: u64,
    /// Pages that came back otherwise than they were last written.
    pub lies: u64,
    /// Pages of which it is known what they have.
    pub pages: u64,
}

impl AddAssign for DeviceCounts {
    fn add_assign(&mut self, other: DeviceCounts) {
        self.reads += other.reads;
        self.writes += other.writes;
        self.read_failures += other.read_failures;
        self.write_failures += other.write_failures;
        self.lies += other.lies;
        self.pages += other.pages;
    }
}

#[derive(Default)]
struct Counters {
    reads: AtomicU64,
    writes: AtomicU64,
    read_failures: AtomicU64,
    write_failures: AtomicU64,
    lies: AtomicU64,
    pages: AtomicU64,
}

/// A device with a digest of each page as it was last written. 0 stands for a page of which nothing is known.
pub(crate) struct Checked {
    device: Box<dyn PageDevice>,
    digests: Box<[AtomicU64]>,
    counters: Counters,
    clocked: Option<Clocked>,
}

impl Checked {
    /// The device, of so many pages, of which nothing is known yet.
    pub fn new(device: Box<dyn PageDevice>, pages: u64, clocked: Option<Clocked>) -> Result<Checked, Refused> {
        let pages = usize::try_from(pages).map_err(|_| Refused::NO_MEMORY)?;
        Ok(Checked { device, digests: zeroed(pages)?, counters: Counters::default(), clocked })
    }

    /// Reads the page, and answers whether it is as it was written.
    pub fn read(&self, page: u32, out: &mut [u8]) -> bool {
        self.read_by(page, out, |out| Some(self.device.read(page, out))).unwrap_or(false)
    }

    /// The same where nobody has to wait for it; else there is no answer.
    pub fn read_now(&self, page: u32, out: &mut [u8]) -> Option<bool> {
        self.read_by(page, out, |out| self.device.read_now(page, out))
    }

    fn read_by(
        &self,
        page: u32,
        out: &mut [u8],
        read: impl FnOnce(&mut [u8]) -> Option<io::Result<()>>,
    ) -> Option<bool> {
        let known = self.digests.get(page as usize).map_or(0, |digest| digest.load(Relaxed));
        let is_read = known != 0 && self.timed(Kind::Read, || read(out))?;
        let is_same = is_read && digest_of(out) == known;
        self.counters.reads.fetch_add(1, Relaxed);
        self.counters.read_failures.fetch_add(u64::from(!is_same), Relaxed);
        self.counters.lies.fetch_add(u64::from(is_read && !is_same), Relaxed);
        Some(is_same)
    }

    /// Writes the page, and answers whether that is done.
    pub fn write(&self, page: u32, bytes: &[u8]) -> bool {
        self.counters.writes.fetch_add(1, Relaxed);
        let is_written = self.has_written(page, bytes);
        if !is_written {
            self.counters.write_failures.fetch_add(1, Relaxed);
        }
        is_written
    }

    fn has_written(&self, page: u32, bytes: &[u8]) -> bool {
        let Some(digest) = self.digests.get(page as usize) else { return false };
        if digest.swap(0, Relaxed) != 0 {
            self.counters.pages.fetch_sub(1, Relaxed);
        }
        if self.timed(Kind::Write, || Some(self.device.write(page, bytes))) != Some(true) {
            return false;
        }
        digest.store(digest_of(bytes), Relaxed);
        self.counters.pages.fetch_add(1, Relaxed);
        true
    }

    // Whether the device did it, which is timed.
    fn timed(&self, kind: Kind, operate: impl FnOnce() -> Option<io::Result<()>>) -> Option<bool> {
        let Some(clocked) = &self.clocked else { return attempted(operate) };
        let begun = Instant::now();
        let is_done = attempted(operate)?;
        clocked.end(kind, begun);
        Some(is_done)
    }

    /// The device's seal, and how it is put there.
    pub fn seal(&self) -> io::Result<Seal> {
        called(|| self.device.seal())
    }

    pub fn put_seal(&self, seal: Seal) -> io::Result<()> {
        called(|| self.device.put_seal(seal))
    }

    /// The digests of so many pages, from this one on.
    pub fn digests(&self, from: u64, pages: u64) -> impl Iterator<Item = u64> + '_ {
        let digests = self.digests.iter().skip(from as usize).take(pages as usize);
        digests.map(|digest| digest.load(Relaxed))
    }

    /// The page has this digest, or is one of which nothing is known, where it is 0.
    pub fn set_digest(&self, page: u64, digest: u64) {
        let Some(place) = self.digests.get(page as usize) else { return };
        match (place.swap(digest, Relaxed), digest) {
            (0, 0) => {}
            (0, _) => _ = self.counters.pages.fetch_add(1, Relaxed),
            (_, 0) => _ = self.counters.pages.fetch_sub(1, Relaxed),
            _ => {}
        }
    }

    pub fn counts(&self) -> DeviceCounts {
        let Counters { reads, writes, read_failures, write_failures, lies, pages } = &self.counters;
        DeviceCounts {
            reads: reads.load(Relaxed),
            writes: writes.load(Relaxed),
            read_failures: read_failures.load(Relaxed),
            write_failures: write_failures.load(Relaxed),
            lies: lies.load(Relaxed),
            pages: pages.load(Relaxed),
        }
    }
}

// So many zeros, for which the system gives memory as they are written.
fn zeroed(count: usize) -> Result<Box<[AtomicU64]>, Refused> {
    let layout = Layout::array::<AtomicU64>(count).map_err(|_| Refused::NO_MEMORY)?;
    if layout.size() == 0 {
        return Ok(Box::default());
    }
    // SAFETY: the layout has bytes.
    let at = unsafe { alloc::alloc_zeroed(layout) };
    if at.is_null() {
        return Err(Refused::NO_MEMORY);
    }
    // SAFETY: there are so many zeros, each of them a number that is 0, and the box gives them back as the same array.
    Ok(unsafe { Box::from_raw(ptr::slice_from_raw_parts_mut(at.cast(), count)) })
}

impl fmt::Debug for Checked {
    fn fmt(&self, f: &mut fmt::Formatter<'_>) -> fmt::Result {
        f.debug_struct("Checked").field("pages", &self.digests.len()).field("counts", &self.counts()).finish()
    }
}

// Whether the device did it; none, where it would have to be waited for. It may panic.
fn attempted(operate: impl FnOnce() -> Option<io::Result<()>>) -> Option<bool> {
    match panic::catch_unwind(AssertUnwindSafe(operate)) {
        Ok(done) => done.map(|done| done.is_ok()),
        Err(_) => Some(false),
    }
}

// What the device answers. It may panic.
fn called<T>(call: impl FnOnce() -> io::Result<T>) -> io::Result<T> {
    panic::catch_unwind(AssertUnwindSafe(call)).unwrap_or_else(|_| Err(io::ErrorKind::Other.into()))
}

#[cfg(test)]
mod tests {
    use super::*;
    use std::sync::Mutex;

    struct Pages(Mutex<Vec<Vec<u8>>>);

    impl PageDevice for Pages {
        fn read(&self, page: u32, out: &mut [u8]) -> io::Result<()> {
            out.copy_from_slice(&self.0.lock().unwrap()[page as usize]);
            Ok(())
        }

        fn write(&self, page: u32, bytes: &[u8]) -> io::Result<()> {
            assert_ne!(bytes[0], 13, "the device panics");
            if bytes[0] == 0 {
                return Err(io::ErrorKind::StorageFull.into());
            }
            self.0.lock().unwrap()[page as usize].copy_from_slice(bytes);
            Ok(())
        }
    }

    fn checked() -> Checked {
        Checked::new(Box::new(Pages(Mutex::new(vec![vec![9; 512]; 4]))), 4, None).unwrap()
    }

    #[test]
    fn a_page_is_answered_as_it_was_written_or_not_at_all() {
        let checked = checked();
        let mut out = [0; 512];
        assert!(!checked.read(1, &mut out)); // it was never written
        assert!(checked.write(1, &[5; 512]));
        assert!(checked.read(1, &mut out));
        assert_eq!(out, [5; 512]);
        assert!(!checked.write(1, &[0; 512]));
        assert!(!checked.read(1, &mut out)); // its write failed
        assert!(!checked.write(1, &[13; 512]));
        assert!(!checked.read(4, &mut out) && !checked.write(4, &[5; 512])); // there is none
        let counts = checked.counts();
        assert_eq!((counts.reads, counts.read_failures, counts.lies), (4, 3, 0));
        assert_eq!((counts.writes, counts.write_failures, counts.pages), (4, 3, 0));
    }

    #[test]
    fn a_page_that_comes_back_otherwise_is_a_lie() {
        let pages = Box::new(Pages(Mutex::new(vec![vec![9; 512]; 4])));
        let checked = Checked::new(pages, 4, None).unwrap();
        assert!(checked.write(2, &[5; 512]));
        checked.digests[2].store(digest_of(&[6; 512]), Relaxed);
        assert!(!checked.read(2, &mut [0; 512]));
        let counts = checked.counts();
        assert_eq!((counts.reads, counts.read_failures, counts.lies, counts.pages), (1, 1, 1, 1));
    }
}
