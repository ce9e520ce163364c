use crate::buffer::with_page;
use crate::digest::digest_of;
use crate::image::Seal;
use crate::steps::{step, Step};
use crate::{FileError, OpenError, Options, PageDevice};
use std::collections::hash_map::RandomState;
use std::fs::{self, File, OpenOptions, TryLockError};
use std::hash::{BuildHasher, Hasher};
use std::io::{self, Seek, SeekFrom};
use std::os::fd::AsRawFd;
use std::os::unix::fs::{FileExt, FileTypeExt, OpenOptionsExt};
use std::path::Path;

/// The bytes in front of the first page: a head, which says that the file or device is one of ours (docs/FORMATS.md).
const HEAD: u64 = 4096;
const NAME: [u8; 16] = *b"Kilambosetry\r\n\x1a\n";
const VERSION: u32 = 1;
// What its digest is of, and which of these bytes are the seal.
const FIELDS: usize = 64;
const SEAL: std::ops::Range<usize> = 48..64;
const NO_SEAL: Seal = [0; 16];
// Stands for a seal that is being taken away: no image has it.
const TAKEN: Seal = [255; 16];

// So much at each end of a file or device that isn't ours is looked at, for anything but zeros: file systems, partitions, volumes
// and the like have their marks there.
const LOOKED_AT: u64 = 1 << 20;

/// A device of pages in a file or on a block device, which is locked against a second opener as long as it is open.
#[derive(Debug)]
pub struct PageFile {
    file: File,
    page: u64,
    pages: u64,
    // the seal that it had as it was opened
    seal: Seal,
    // whether the system keeps copies of pages
    is_cached: bool,
}

impl PageFile {
    /// Opens the file or block device, or makes the file (readable and writable for its owner alone), for so many pages of so many
    /// bytes. An empty file gets its length, and room on the disk as it is written. One that has anything and isn't ours is refused,
    /// as [`Options::overwrite`] says, and a block device that is in use. A seal that it has is taken from it here, unless something
    /// is to be kept ([`Options::keep`]): then it is for the cache to take.
    pub fn open(path: &Path, pages: u64, page: u64, options: &Options) -> Result<PageFile, OpenError> {
        PageFile::made(path, pages, page, options).map_err(|why| OpenError::of_file(path, why))
    }

    fn made(path: &Path, pages: u64, page: u64, options: &Options) -> Result<PageFile, FileError> {
        let mut file = match options.unnamed {
            true => opened(&OpenOptions::new(), path, O_TMPFILE, options)?,
            false => open_named(path, options)?,
        };
        file.try_lock().map_err(|error| match error {
            TryLockError::WouldBlock => FileError::InUse,
            TryLockError::Error(error) => FileError::Io(error),
        })?;
        let (found, is_long) = take(&mut file, HEAD + pages * page, options.overwrite)?;
        let kept = found.filter(|_| is_long && options.keep.is_some());
        let seal = kept.map_or(NO_SEAL, |head| seal_of(&head, pages, page));
        if seal == NO_SEAL {
            match found.is_some_and(|head| head[SEAL] != NO_SEAL) {
                true => take_seal(&file, pages, page)?,
                false => write_head(&file, pages, page, NO_SEAL)?,
            }
        }
        Ok(PageFile { file, page, pages, seal, is_cached: !options.direct })
    }

    fn place_of(&self, page: u32) -> u64 {
        HEAD + u64::from(page) * self.page
    }
}

// A block device is opened so that the system refuses it where it is mounted, or otherwise in use.
fn open_named(path: &Path, options: &Options) -> Result<File, FileError> {
    let is_device = fs::metadata(path).is_ok_and(|found| found.file_type().is_block_device());
    let file = match is_device {
        true => opened(&OpenOptions::new(), path, O_EXCL, options)?,
        false => opened(OpenOptions::new().create(true).truncate(false), path, 0, options)?,
    };
    if file.metadata()?.file_type().is_block_device() != is_device {
        return Err(FileError::InUse); // (another puts something else there)
    }
    Ok(file)
}

fn opened(as_given: &OpenOptions, path: &Path, flags: i32, options: &Options) -> Result<File, FileError> {
    let direct = if options.direct { O_DIRECT } else { 0 };
    let opened = as_given.clone().read(true).write(true).mode(0o600).custom_flags(flags | direct).open(path);
    opened.map_err(|error| match error.kind() {
        io::ErrorKind::ResourceBusy => FileError::InUse,
        _ => FileError::Io(error),
    })
}

type Head = [u8; FIELDS + 8];

// Sees that it is ours to write, and has so many bytes. Answers the head that it had, where that was ours, and whether it had as many
// bytes.
fn take(file: &mut File, wanted: u64, overwrites: bool) -> Result<(Option<Head>, bool), FileError> {
    let kind = file.metadata()?.file_type();
    if !kind.is_file() && !kind.is_block_device() {
        return Err(FileError::OtherKind);
    }
    let found = file.seek(SeekFrom::End(0))?;
    if kind.is_block_device() && found < wanted {
        return Err(FileError::TooSmall { found, wanted });
    }
    let head = if found >= HEAD { Some(read_head(file)?) } else { None };
    let head = head.filter(|head| head.starts_with(&NAME));
    if head.is_none() && !overwrites && has_anything(file, found, kind.is_file())? {
        return Err(FileError::NotOurs);
    }
    let is_long = found == wanted || kind.is_block_device();
    if kind.is_file() && (head.is_none() || !is_long) {
        file.set_len(0)?;
        file.set_len(wanted)?;
    }
    Ok((head, is_long))
}

// The seal of a head that is whole, and of so many pages of so many bytes, if it wasn't taken.
fn seal_of(head: &Head, pages: u64, page: u64) -> Seal {
    let mut seal = NO_SEAL;
    let is_whole = head[FIELDS..] == digest_of(&head[..FIELDS]).to_le_bytes();
    if is_whole && head[16..32] == of_pages(pages, page) && head[SEAL] != TAKEN {
        seal.copy_from_slice(&head[SEAL]);
    }
    seal
}

// The version, and what the pages are.
fn of_pages(pages: u64, page: u64) -> [u8; 16] {
    let mut bytes = [0; 16];
    bytes[..4].copy_from_slice(&VERSION.to_le_bytes());
    bytes[4..8].copy_from_slice(&(page as u32).to_le_bytes());
    bytes[8..].copy_from_slice(&pages.to_le_bytes());
    bytes
}

// Answers once all that was written is on the disk.
fn sync(file: &File) -> Result<(), FileError> {
    step(Step::SyncFlash)?;
    Ok(file.sync_data()?)
}

// By the thread's buffer. Where there is none it is as if the system had no memory for it.
fn in_buffer<T>(bytes: u64, work: impl FnOnce(&mut [u8]) -> io::Result<T>) -> Result<T, FileError> {
    let done = with_page(bytes as usize, work);
    Ok(done.unwrap_or_else(|| Err(io::ErrorKind::OutOfMemory.into()))?)
}

fn read_head(file: &File) -> Result<Head, FileError> {
    step(Step::ReadHead)?;
    let read = |out: &mut [u8]| -> io::Result<Head> {
        file.read_exact_at(out, 0)?;
        let mut head = [0; FIELDS + 8];
        head.copy_from_slice(&out[..FIELDS + 8]);
        Ok(head)
    };
    in_buffer(HEAD, read)
}

// Whose it is: the name and the version, what the pages are, a number drawn by chance, the seal of a restart (none: zeros), and a
// digest of these.
fn write_head(file: &File, pages: u64, page: u64, seal: Seal) -> Result<(), FileError> {
    step(Step::WriteHead)?;
    let drawn = || RandomState::new().build_hasher().finish().to_le_bytes();
    let fields = [&NAME[..], &of_pages(pages, page), &drawn(), &drawn(), &seal];
    let write = |out: &mut [u8]| {
        out.fill(0);
        let mut at = 0;
        for field in fields {
            out[at..at + field.len()].copy_from_slice(field);
            at += field.len();
        }
        let digest = digest_of(&out[..at]).to_le_bytes();
        out[at..at + digest.len()].copy_from_slice(&digest);
        file.write_all_at(out, 0)
    };
    in_buffer(HEAD, write)
}

// Takes the seal away for good. As long as the disk may still have it, another stands in its place that no image has: so if this process
// ends before that is synced, or it can't be, the next one takes it away again.
fn take_seal(file: &File, pages: u64, page: u64) -> Result<(), FileError> {
    write_head(file, pages, page, TAKEN)?;
    sync(file)?;
    write_head(file, pages, page, NO_SEAL)
}

// Whether there is anything in it, of what is looked at. A file that has room alone has nothing.
fn has_anything(file: &File, bytes: u64, is_file: bool) -> Result<bool, FileError> {
    if bytes == 0 {
        return Ok(false);
    }
    if is_file {
        return Ok(has_data(file));
    }
    let head = 0..bytes.min(LOOKED_AT);
    let tail = bytes.saturating_sub(LOOKED_AT) / HEAD * HEAD..bytes;
    for at in head.chain(tail).step_by(HEAD as usize) {
        let is_zero = |out: &mut [u8]| file.read_exact_at(out, at).map(|()| out.iter().all(|byte| *byte == 0));
        if !in_buffer(HEAD.min(bytes - at), is_zero)? {
            return Ok(true);
        }
    }
    Ok(false)
}

impl PageDevice for PageFile {
    fn read(&self, page: u32, out: &mut [u8]) -> io::Result<()> {
        self.file.read_exact_at(out, self.place_of(page))
    }

    fn write(&self, page: u32, bytes: &[u8]) -> io::Result<()> {
        self.file.write_all_at(bytes, self.place_of(page))
    }

    fn read_now(&self, page: u32, out: &mut [u8]) -> Option<io::Result<()>> {
        let is_read = self.is_cached && read_copy(&self.file, out, self.place_of(page));
        is_read.then_some(Ok(()))
    }

    fn seal(&self) -> io::Result<Seal> {
        Ok(self.seal)
    }

    fn put_seal(&self, seal: Seal) -> io::Result<()> {
        let put = || -> Result<(), FileError> {
            if seal == NO_SEAL {
                return take_seal(&self.file, self.pages, self.page);
            }
            sync(&self.file)?;
            write_head(&self.file, self.pages, self.page, seal)?;
            sync(&self.file)
        };
        put().map_err(|why| match why {
            FileError::Io(error) => error,
            _ => io::ErrorKind::Other.into(),
        })
    }
}

// Whether all of `out` was read from the system's copy of the file, without waiting for the disk.
#[cfg(all(target_os = "linux", target_env = "gnu", target_pointer_width = "64"))]
fn read_copy(file: &File, out: &mut [u8], at: u64) -> bool {
    #[repr(C)]
    struct Part {
        to: *mut u8,
        bytes: usize,
    }
    extern "C" {
        fn preadv2(file: i32, parts: *const Part, count: i32, at: i64, flags: i32) -> isize;
    }
    const NO_WAIT: i32 = 8;
    let part = Part { to: out.as_mut_ptr(), bytes: out.len() };
    // SAFETY: the one part is `out`, of which the call writes no more than there is.
    let read = unsafe { preadv2(file.as_raw_fd(), &part, 1, at as i64, NO_WAIT) };
    usize::try_from(read) == Ok(out.len())
}

#[cfg(not(all(target_os = "linux", target_env = "gnu", target_pointer_width = "64")))]
fn read_copy(_: &File, _: &mut [u8], _: u64) -> bool {
    false
}

// Whether anything was written to the file since it got its length.
#[cfg(all(target_os = "linux", target_pointer_width = "64"))]
fn has_data(file: &File) -> bool {
    extern "C" {
        fn lseek(file: i32, offset: i64, whence: i32) -> i64;
    }
    const SEEK_DATA: i32 = 3;
    // SAFETY: the call has no pointers. Whose place in the file it is doesn't matter, since each operation says its own.
    let found = unsafe { lseek(file.as_raw_fd(), 0, SEEK_DATA) };
    const NO_SUCH_PLACE: i32 = 6;
    found >= 0 || io::Error::last_os_error().raw_os_error() != Some(NO_SUCH_PLACE)
}

#[cfg(not(all(target_os = "linux", target_pointer_width = "64")))]
fn has_data(_: &File) -> bool {
    true
}

// Linux has other numbers for these on some processors.
#[cfg(any(target_arch = "aarch64", target_arch = "arm"))]
const O_DIRECT: i32 = 0o200_000;
#[cfg(any(target_arch = "powerpc", target_arch = "powerpc64"))]
const O_DIRECT: i32 = 0o400_000;
#[cfg(not(any(target_arch = "aarch64", target_arch = "arm", target_arch = "powerpc", target_arch = "powerpc64")))]
const O_DIRECT: i32 = 0o40_000;
#[cfg(any(target_arch = "aarch64", target_arch = "arm", target_arch = "powerpc", target_arch = "powerpc64"))]
const O_DIRECTORY: i32 = 0o40_000;
#[cfg(not(any(target_arch = "aarch64", target_arch = "arm", target_arch = "powerpc", target_arch = "powerpc64")))]
const O_DIRECTORY: i32 = 0o200_000;
const O_TMPFILE: i32 = 0o20_000_000 | O_DIRECTORY;
const O_EXCL: i32 = 0o200;
