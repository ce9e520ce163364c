//! What a cache is to keep for the next one, what it began with, and what came of its close.
use crate::shared::{boxed, Shared};
use crate::{Refused, Stats};
use std::alloc::{self, Layout};
use std::ffi::OsString;
use std::panic::{RefUnwindSafe, UnwindSafe};
use std::path::PathBuf;
use std::time::Duration;
use std::{error, fmt, io};

/// That a cache is to keep what it has for the next one, which is opened with the same options over the same flash: by
/// [`HybridCache::close`](crate::HybridCache::close), and by nothing else. A cache that ends otherwise keeps nothing.
///
/// What is kept is used once. It is right as long as no row was changed while no cache was open: **who changes rows repeats each
/// delete until it is answered, also over a restart**, or nothing is to be kept. docs/OPERATING.md has all that is promised.
///
/// ```
/// use kilambosetry::{Began, HybridCache, Keep, Options};
/// use std::time::Duration;
/// # let path = std::env::temp_dir().join(format!("keep-{}", std::process::id()));
///
/// let keep = Keep { for_at_most: Duration::from_secs(300), ..Keep::at(path.with_extension("kept")) };
/// let options = Options { flash: 20_000_000, keep: Some(keep), ..Options::default() };
/// let cache = HybridCache::open(&path, &options)?;
/// assert!(matches!(cache.kept(), Began::Empty(_))); // the first one
/// cache.set(b"user:7", b"Ada", 3600)?;
/// println!("{}", cache.close()); // what was done, and what is kept
///
/// let cache = HybridCache::open(&path, &options)?;
/// assert!(matches!(cache.kept(), Began::Kept(_)));
/// assert_eq!(cache.get(b"user:7")?.as_deref(), Some(&b"Ada"[..]));
/// # drop(cache);
/// # std::fs::remove_file(path)?;
/// # Ok::<(), Box<dyn std::error::Error>>(())
/// ```
#[derive(Clone, Debug)]
pub struct Keep {
    /// The file that is written at the close, readable and writable for its owner alone, and removed as the next cache is opened. A
    /// second one beside it, with `.new` behind its name, is there as long as it is written, and one with `.try` for a moment as a
    /// cache is opened, to see that files can be made there. What has anything and isn't ours is refused, or left alone
    /// ([`FileError::NotOurs`](crate::FileError::NotOurs)). It may be as long as all that memory has, and some percent of what flash
    /// has; a block device's belongs on a disk.
    pub path: PathBuf,
    /// What of memory is kept.
    pub what: KeepWhat,
    /// How long ago the close may be as the next cache is opened: what was kept longer ago is forgotten. It is what a clock of
    /// seconds tells ([`Options::clock`](crate::Options::clock)).
    pub for_at_most: Duration,
    /// How long the close may take. Calls and operations that are under way have half of it to end; the shards where they don't
    /// aren't kept. Then the file is written; where it isn't whole in time, nothing is kept.
    pub close_within: Duration,
    /// Who is told how far the file is written or read.
    pub watch: Watch,
}

impl Keep {
    /// All is kept in this file, for five minutes, by a close that takes ten seconds at most, and nobody is told.
    #[must_use]
    pub fn at(path: impl Into<PathBuf>) -> Keep {
        Keep {
            path: path.into(),
            what: KeepWhat::All,
            for_at_most: Duration::from_secs(300),
            close_within: Duration::from_secs(10),
            watch: Watch::nobody(),
        }
    }

    // A copy, or a refusal. (`clone` ends the process where it is out of memory.)
    pub(crate) fn try_clone(&self) -> Result<Keep, Refused> {
        let mut path = OsString::new();
        path.try_reserve_exact(self.path.as_os_str().len()).map_err(|_| Refused::NO_MEMORY)?;
        path.push(&self.path);
        let Keep { what, for_at_most, close_within, ref watch, .. } = *self;
        Ok(Keep { path: path.into(), what, for_at_most, close_within, watch: watch.clone() })
    }
}

/// What of a cache is kept. What is on flash always is, and only what finds it there goes into the file.
#[derive(Clone, Copy, Debug, Default, PartialEq, Eq)]
#[non_exhaustive]
pub enum KeepWhat {
    /// Items in memory too: they go into the file.
    #[default]
    All,
    /// The close has items leave memory first, as others would push them out: so they go to flash, where they are admitted, and the
    /// file is small. What hasn't left in a quarter of `close_within` goes into the file.
    Flash,
}

/// How far the file of what is kept is written or read.
#[derive(Clone, Copy, Debug, PartialEq, Eq)]
#[non_exhaustive]
pub struct Progress {
    /// Bytes of the file so far.
    pub bytes: u64,
    /// Shards that are done.
    pub shards: u64,
    /// Shards in all.
    pub of: u64,
}

/// Who is told how far the file of what is kept is: after each shard, and each few megabytes.
#[derive(Clone)]
pub struct Watch(Option<Shared<Told>>);

type Told = Box<dyn Fn(Progress) + Send + Sync>;

impl Watch {
    /// Nobody.
    #[must_use]
    pub fn nobody() -> Watch {
        Watch(None)
    }

    /// This function, by the thread that opens or closes the cache.
    #[must_use]
    pub fn new(told: impl Fn(Progress) + Send + Sync + 'static) -> Watch {
        Watch::try_new(told).unwrap_or_else(|_| alloc::handle_alloc_error(Layout::new::<Told>()))
    }

    /// The same, refused with [`Refused::NO_MEMORY`] where [`new`](Watch::new) ends the process.
    pub fn try_new(told: impl Fn(Progress) + Send + Sync + 'static) -> Result<Watch, Refused> {
        let told: Told = boxed(told)?;
        Shared::new(told).map(|told| Watch(Some(told)))
    }

    pub(crate) fn tell(&self, progress: Progress) {
        if let Some(told) = &self.0 {
            told(progress);
        }
    }
}

// (a panic of it leaves nothing kept, and a seal and its file as they were)
impl UnwindSafe for Watch {}
impl RefUnwindSafe for Watch {}

impl fmt::Debug for Watch {
    fn fmt(&self, f: &mut fmt::Formatter<'_>) -> fmt::Result {
        f.write_str(if self.0.is_some() { "Watch" } else { "Watch(nobody)" })
    }
}

/// What a cache began with: [`HybridCache::kept`](crate::HybridCache::kept).
#[derive(Clone, Debug, PartialEq, Eq)]
#[non_exhaustive]
pub enum Began {
    /// With what the one before it had.
    Kept(WasKept),
    /// With nothing.
    Empty(WhyEmpty),
}

/// What a cache had, and the next one has again.
#[derive(Clone, Debug, Default, PartialEq, Eq)]
#[non_exhaustive]
pub struct WasKept {
    /// Shards that have what they had. The others weren't at rest as the cache was closed, and are empty.
    pub shards: u64,
    /// Shards in all.
    pub of: u64,
    /// Items in memory.
    pub items: u64,
    /// Bytes of the pages of flash.
    pub flash_bytes: u64,
    /// Bytes of the file.
    pub bytes: u64,
    /// Seconds since the close.
    pub seconds: u64,
    /// What was handed to [`close_with`](crate::HybridCache::close_with).
    pub beside: Vec<u8>,
}

/// Why a cache began with nothing.
#[derive(Clone, Copy, Debug, PartialEq, Eq)]
#[non_exhaustive]
pub enum WhyEmpty {
    /// Nothing is to be kept ([`Options::keep`](crate::Options::keep)).
    NotAsked,
    /// The flash has no seal: it is new or has another length, or the cache before didn't keep what it had, or ended without a
    /// close.
    NoSeal,
    /// The flash has a seal, and there is no file.
    NoFile,
    /// The file has another seal: it is of another flash, or an earlier one.
    OtherSeal,
    /// The file couldn't be read.
    Unread(io::ErrorKind),
    /// The file ends too early, or isn't as it was written.
    NotWhole,
    /// It was written by another version.
    OtherVersion,
    /// It is of a cache with other options.
    OtherOptions,
    /// It was written at a later second than it is now.
    ClockWentBack,
    /// It was written longer ago than `for_at_most`.
    TooOld,
    /// What it says can't be of a cache.
    Unfit,
    /// There is no memory for it.
    NoMemory,
}

impl fmt::Display for Began {
    fn fmt(&self, f: &mut fmt::Formatter<'_>) -> fmt::Result {
        match self {
            Began::Kept(kept) => kept.fmt(f),
            Began::Empty(why) => write!(f, "empty: {why}"),
        }
    }
}

impl fmt::Display for WasKept {
    fn fmt(&self, f: &mut fmt::Formatter<'_>) -> fmt::Result {
        let WasKept { shards, of, items, flash_bytes, bytes, seconds, .. } = self;
        write!(
            f,
            "kept: {items} items in memory and {flash_bytes} bytes of flash, of {shards} of {of} shards, by {bytes} bytes \
             written {seconds} s ago"
        )
    }
}

impl fmt::Display for WhyEmpty {
    fn fmt(&self, f: &mut fmt::Formatter<'_>) -> fmt::Result {
        f.write_str(match self {
            WhyEmpty::NotAsked => "nothing is to be kept",
            WhyEmpty::NoSeal => "the flash has no seal of a cache that was closed",
            WhyEmpty::NoFile => "the file of what was kept isn't there",
            WhyEmpty::OtherSeal => "what was kept is of another flash, or an earlier one",
            WhyEmpty::Unread(kind) => return write!(f, "what was kept can't be read: {kind}"),
            WhyEmpty::NotWhole => "what was kept isn't whole",
            WhyEmpty::OtherVersion => "what was kept is of another version",
            WhyEmpty::OtherOptions => "what was kept is of other options",
            WhyEmpty::ClockWentBack => "what was kept is of a later second than it is now",
            WhyEmpty::TooOld => "what was kept is too old",
            WhyEmpty::Unfit => "what was kept can't be of a cache",
            WhyEmpty::NoMemory => "there is no memory for what was kept",
        })
    }
}

/// What came of a close.
#[derive(Debug)]
#[non_exhaustive]
pub struct Closed {
    /// What the cache did, and what it had.
    pub stats: Stats,
    /// What is kept, or why nothing is.
    pub kept: Result<Saved, NotKept>,
}

/// What is kept of a cache.
#[derive(Clone, Copy, Debug, Default, PartialEq, Eq)]
#[non_exhaustive]
pub struct Saved {
    /// Shards that are kept. The others weren't at rest in time.
    pub shards: u64,
    /// Shards in all.
    pub of: u64,
    /// Bytes of the file.
    pub bytes: u64,
}

/// Why nothing is kept of a cache that was closed.
#[derive(Debug)]
#[non_exhaustive]
pub enum NotKept {
    /// Nothing is to be kept ([`Options::keep`](crate::Options::keep)).
    NotAsked,
    /// Another handle closed it.
    Elsewhere,
    /// What the cache had was changed behind its close, by a call that can't be refused:
    /// [`change`](crate::HybridCache::change), [`invalidate`](crate::HybridCache::invalidate) or
    /// [`clear`](crate::HybridCache::clear). Let none be under way where a cache is closed.
    Changed,
    /// No shard came to rest in time.
    Busy,
    /// The file wasn't whole in time.
    TimeIsUp,
    /// There is no memory for it.
    NoMemory,
    /// The library refused it.
    Refused(Refused),
    /// The file, or the flash's seal, can't be written.
    Io(io::Error),
}

impl fmt::Display for Closed {
    fn fmt(&self, f: &mut fmt::Formatter<'_>) -> fmt::Result {
        self.stats.fmt(f)?;
        match &self.kept {
            Ok(saved) => write!(f, "\n{saved}"),
            Err(NotKept::NotAsked) => Ok(()),
            Err(why) => write!(f, "\nnot kept: {why}"),
        }
    }
}

impl fmt::Display for Saved {
    fn fmt(&self, f: &mut fmt::Formatter<'_>) -> fmt::Result {
        write!(f, "kept: {} of {} shards, by {} bytes", self.shards, self.of, self.bytes)
    }
}

impl fmt::Display for NotKept {
    fn fmt(&self, f: &mut fmt::Formatter<'_>) -> fmt::Result {
        match self {
            NotKept::NotAsked => f.write_str("nothing is to be kept"),
            NotKept::Elsewhere => f.write_str("another handle closed the cache"),
            NotKept::Changed => f.write_str("a key was changed behind the close"),
            NotKept::Busy => f.write_str("no shard came to rest in time"),
            NotKept::TimeIsUp => f.write_str("the file wasn't whole in time"),
            NotKept::NoMemory => f.write_str("out of memory"),
            NotKept::Refused(refused) => refused.fmt(f),
            NotKept::Io(error) => error.fmt(f),
        }
    }
}

impl error::Error for NotKept {
    fn source(&self) -> Option<&(dyn error::Error + 'static)> {
        match self {
            NotKept::Refused(refused) => Some(refused),
            NotKept::Io(error) => Some(error),
            _ => None,
        }
    }
}

impl From<Refused> for NotKept {
    fn from(refused: Refused) -> NotKept {
        match refused {
            Refused::NO_MEMORY => NotKept::NoMemory,
            refused => NotKept::Refused(refused),
        }
    }
}

impl From<io::Error> for NotKept {
    fn from(error: io::Error) -> NotKept {
        match error.kind() {
            io::ErrorKind::OutOfMemory => NotKept::NoMemory,
            _ => NotKept::Io(error),
        }
    }
}
