use crate::shared::{boxed, Shared};
use crate::Refused;
use std::alloc::{self, Layout};
use std::fmt;
use std::panic::{RefUnwindSafe, UnwindSafe};
#[cfg(all(target_os = "linux", target_pointer_width = "64"))]
use std::sync::atomic::{AtomicU64, Ordering::Relaxed};
use std::sync::OnceLock;
use std::time::{SystemTime, UNIX_EPOCH};

/// A clock of seconds, which each call of a [`HybridCache`](crate::HybridCache) asks. Where it goes back, the cache's stays.
// (none is the system's)
#[derive(Clone)]
pub struct Clock(Option<Shared<Own>>);

type Own = Box<dyn Fn() -> u64 + Send + Sync>;

impl Clock {
    /// The system's: the second of the day's date as the process first asked, and the seconds that have passed since. So it neither
    /// goes back nor jumps where the date is set, and goes on while the machine sleeps (on Linux by CLOCK_BOOTTIME).
    #[must_use]
    pub fn system() -> Clock {
        Clock(None)
    }

    /// One of your own.
    ///
    /// ```
    /// use kilambosetry::{Clock, HybridCache, Options};
    /// use std::sync::atomic::{AtomicU64, Ordering};
    /// use std::sync::Arc;
    ///
    /// let second = Arc::new(AtomicU64::new(1));
    /// let hand = Arc::clone(&second);
    /// let options = Options { clock: Clock::new(move || hand.load(Ordering::Relaxed)), ..Options::default() };
    /// let cache = HybridCache::in_memory(&options)?;
    /// cache.set(b"key", b"value", 10)?;
    /// second.store(11, Ordering::Relaxed);
    /// assert!(cache.get(b"key")?.is_none());
    /// # Ok::<(), Box<dyn std::error::Error>>(())
    /// ```
    #[must_use]
    pub fn new(second: impl Fn() -> u64 + Send + Sync + 'static) -> Clock {
        Clock::try_new(second).unwrap_or_else(|_| alloc::handle_alloc_error(Layout::new::<Own>()))
    }

    /// The same, refused with [`Refused::NO_MEMORY`] where [`new`](Clock::new) ends the process.
    pub fn try_new(second: impl Fn() -> u64 + Send + Sync + 'static) -> Result<Clock, Refused> {
        let own: Own = boxed(second)?;
        Shared::new(own).map(|own| Clock(Some(own)))
    }

    /// The second that it is.
    #[must_use]
    pub fn now(&self) -> u64 {
        match &self.0 {
            Some(own) => own(),
            None => second(),
        }
    }
}

// The second that it is.
fn second() -> u64 {
    // the second of the date in which no second had passed
    static FIRST: OnceLock<u64> = OnceLock::new();
    let passed = passed();
    FIRST.get_or_init(|| date().saturating_sub(passed)).saturating_add(passed)
}

fn date() -> u64 {
    SystemTime::now().duration_since(UNIX_EPOCH).map_or(0, |time| time.as_secs())
}

/// The seconds that have passed since the machine started, those too in which it slept. That clock takes as long as some hits; so
/// it is asked once in each second of another one, which stands still meanwhile and takes a tenth of that: where the machine has
/// slept, this is a second late at most.
#[cfg(all(target_os = "linux", target_pointer_width = "64"))]
fn passed() -> u64 {
    // a second awake, and which it was then, of each the lower half
    static SEEN: AtomicU64 = AtomicU64::new(0);
    const MONOTONIC_COARSE: i32 = 6;
    const BOOTTIME: i32 = 7;
    let Some(awake) = second_of(MONOTONIC_COARSE) else { return passed_awake() };
    let seen = SEEN.load(Relaxed);
    if seen >> 32 == awake & HALF && seen != 0 {
        return seen & HALF;
    }
    let Some(passed) = second_of(BOOTTIME) else { return passed_awake() };
    SEEN.store(awake << 32 | passed & HALF, Relaxed);
    passed
}

#[cfg(all(target_os = "linux", target_pointer_width = "64"))]
const HALF: u64 = u32::MAX as u64;

#[cfg(all(target_os = "linux", target_pointer_width = "64"))]
fn second_of(clock: i32) -> Option<u64> {
    #[repr(C)]
    struct Time {
        seconds: i64,
        nanoseconds: i64,
    }
    extern "C" {
        fn clock_gettime(clock: i32, time: *mut Time) -> i32;
    }
    let mut time = Time { seconds: 0, nanoseconds: 0 };
    // SAFETY: the call writes the two words of `time` alone.
    let failed = unsafe { clock_gettime(clock, &mut time) };
    u64::try_from(time.seconds).ok().filter(|_| failed == 0)
}

#[cfg(not(all(target_os = "linux", target_pointer_width = "64")))]
fn passed() -> u64 {
    passed_awake()
}

// Those that have passed since this was called first, by the clock that the platform has.
fn passed_awake() -> u64 {
    static BEGIN: OnceLock<std::time::Instant> = OnceLock::new();
    BEGIN.get_or_init(std::time::Instant::now).elapsed().as_secs()
}

// The cache asks it with nothing half done.
impl UnwindSafe for Clock {}
impl RefUnwindSafe for Clock {}

impl fmt::Debug for Clock {
    fn fmt(&self, f: &mut fmt::Formatter<'_>) -> fmt::Result {
        f.write_str("Clock")
    }
}
