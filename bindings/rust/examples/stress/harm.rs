//! What befalls the pages of a cache while it is served.
use crate::draws::Draws;
use kilambosetry::PageDevice;
use std::fs::OpenOptions;
use std::io;
use std::os::unix::fs::FileExt;
use std::panic;
use std::path::Path;
use std::sync::atomic::{AtomicBool, AtomicU64, Ordering::SeqCst};
use std::sync::{Mutex, PoisonError};
use std::thread;
use std::time::Duration;

const PAGE: u64 = 4096;
const PAUSE: Duration = Duration::from_micros(500);

/// Until this ends, pages of the file get what others have, a few bytes of it are written over, and now and then it is cut to half
/// its length for a while. Answers how often.
pub fn harm(place: &Path, seed: u64, ends: &AtomicBool) -> io::Result<u64> {
    let file = OpenOptions::new().read(true).write(true).open(place)?;
    let (bytes, mut draws, mut times) = (file.metadata()?.len(), Draws::new(seed), 0);
    while !ends.load(SeqCst) {
        times += 1;
        match draws.below(10) {
            0 => {
                file.set_len(bytes / 2)?;
                thread::sleep(4 * PAUSE);
                file.set_len(bytes)?;
            }
            1..=4 => {
                let mut page = [0; PAGE as usize];
                let (from, to) = (draws.below(bytes / PAGE), draws.below(bytes / PAGE));
                file.read_exact_at(&mut page, from * PAGE)?;
                file.write_all_at(&page, to * PAGE)?;
            }
            _ => file.write_all_at(&[draws.next() as u8; 3], draws.below(bytes - 3))?,
        }
        thread::sleep(PAUSE);
    }
    Ok(times)
}

/// A page, and what it had before.
struct Page {
    now: Vec<u8>,
    before: Vec<u8>,
}

/// A device in memory that fails, panics, answers an older page, another one or one with a flipped bit, and loses writes, or half of
/// them.
pub struct Bad {
    pages: Vec<Mutex<Page>>,
    // operations so far
    at: AtomicU64,
}

impl Bad {
    pub fn new(pages: u64) -> Bad {
        let page = || Mutex::new(Page { now: vec![0; PAGE as usize], before: vec![0; PAGE as usize] });
        Bad { pages: (0..pages).map(|_| page()).collect(), at: AtomicU64::new(0) }
    }

    fn next(&self) -> u64 {
        self.at.fetch_add(1, SeqCst)
    }

    fn with<T>(&self, page: u32, operate: impl FnOnce(&mut Page) -> T) -> T {
        let place = &self.pages[page as usize % self.pages.len()];
        operate(&mut place.lock().unwrap_or_else(PoisonError::into_inner))
    }
}

// Panics without a word.
fn panics() -> ! {
    panic::resume_unwind(Box::new("the device panics"))
}

impl PageDevice for Bad {
    fn read(&self, page: u32, out: &mut [u8]) -> io::Result<()> {
        let at = self.next();
        match at % 97 {
            1 => return Err(io::Error::other("a read that fails")),
            2 => self.with(page, |page| out.copy_from_slice(&page.before)),
            3 => self.with(page + 1, |page| out.copy_from_slice(&page.now)),
            4 => panics(),
            5 => {
                thread::sleep(6 * PAUSE);
                self.with(page, |page| out.copy_from_slice(&page.now));
            }
            6 => {
                self.with(page, |page| out.copy_from_slice(&page.now));
                out[at as usize % PAGE as usize] ^= 1;
            }
            _ => self.with(page, |page| out.copy_from_slice(&page.now)),
        }
        Ok(())
    }

    fn write(&self, page: u32, bytes: &[u8]) -> io::Result<()> {
        let half = bytes.len() / 2;
        match self.next() % 89 {
            1 => return Err(io::Error::other("a write that fails")),
            2 => {} // it is lost
            3 => self.with(page, |page| page.now[..half].copy_from_slice(&bytes[..half])),
            4 => panics(),
            _ => self.with(page, |page| {
                std::mem::swap(&mut page.now, &mut page.before);
                page.now.copy_from_slice(bytes);
            }),
        }
        Ok(())
    }

    fn read_now(&self, page: u32, out: &mut [u8]) -> Option<io::Result<()>> {
        match self.next() {
            at if at % 3 == 0 => None,
            at if at % 101 == 7 => panics(),
            _ => Some(self.read(page, out)),
        }
    }
}
