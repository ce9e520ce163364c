//! What befalls the file of a cache while it is served.
use crate::draws;
use std::collections::VecDeque;
use std::fs::{File, OpenOptions};
use std::io;
use std::os::unix::fs::FileExt;
use std::path::Path;
use std::sync::atomic::{AtomicBool, Ordering::Relaxed};
use std::thread;
use std::time::Duration;

const PAGE: usize = 4096;
// As many pages are kept: one of three rounds adds one, so that half a second passes at least.
const OLD: usize = 166;

const PAUSE: Duration = Duration::from_millis(1);

// A page as it was some time ago.
struct Old {
    at: u64,
    bytes: [u8; PAGE],
}

/// Until this ends, at most a thousand times a second one of the file's pages has a byte flipped, is zeroed, or gets what it had
/// half a second or more before, as if no write since then had been made; and of a thousand times one cuts the file, which then
/// is as long as before. Answers how often.
pub fn harm(place: &Path, ends: &AtomicBool) -> io::Result<u64> {
    let file = OpenOptions::new().read(true).write(true).open(place)?;
    let bytes = file.metadata()?.len();
    let mut seed = 1;
    let mut old = VecDeque::new();
    let mut times = 0;
    while !ends.load(Relaxed) {
        thread::sleep(PAUSE);
        let at = draws::next(&mut seed) % (bytes / PAGE as u64) * PAGE as u64;
        match times % 1000 {
            0 => cut(&file, at, bytes)?,
            turn => spoil(&file, turn % 3, at, &mut old)?,
        }
        times += 1;
    }
    Ok(times)
}

fn cut(file: &File, at: u64, bytes: u64) -> io::Result<()> {
    file.set_len(at)?;
    thread::sleep(PAUSE);
    file.set_len(bytes)
}

fn spoil(file: &File, how: u64, at: u64, old: &mut VecDeque<Old>) -> io::Result<()> {
    let mut page = [0; PAGE];
    match how {
        0 => {
            file.read_exact_at(&mut page, at)?;
            page[at as usize / PAGE % PAGE] ^= 1;
            file.write_all_at(&page, at)
        }
        1 => file.write_all_at(&page, at),
        _ => {
            file.read_exact_at(&mut page, at)?;
            old.push_back(Old { at, bytes: page });
            let before = if old.len() > OLD { old.pop_front() } else { None };
            before.map_or(Ok(()), |before| file.write_all_at(&before.bytes, before.at))
        }
    }
}
