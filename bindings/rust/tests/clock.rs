//! The system's clock counts on, whatever is done to the date. The date is what a `clock_gettime` of this test's own says of it.
#![cfg(all(target_os = "linux", target_pointer_width = "64"))]
use kilambosetry::{HybridCache, Kept, Lookup, Options};
use std::sync::atomic::{AtomicI64, Ordering::SeqCst};
use std::thread;
use std::time::Duration;

#[repr(C)]
struct Time {
    seconds: i64,
    nanoseconds: i64,
}

extern "C" {
    fn syscall(number: i64, clock: i64, time: *mut Time) -> i64;
}

// How far the date is set off.
static OFF: AtomicI64 = AtomicI64::new(0);

#[cfg(target_arch = "x86_64")]
const CLOCK_GETTIME: i64 = 228;
#[cfg(target_arch = "aarch64")]
const CLOCK_GETTIME: i64 = 113;

const REALTIME: i32 = 0;
const REALTIME_COARSE: i32 = 5;

// It stands in place of the C library's, for all of this program.
#[no_mangle]
unsafe extern "C" fn clock_gettime(clock: i32, time: *mut Time) -> i32 {
    let failed = syscall(CLOCK_GETTIME, clock.into(), time);
    if matches!(clock, REALTIME | REALTIME_COARSE) {
        (*time).seconds += OFF.load(SeqCst);
    }
    failed as i32
}

const DAY: i64 = 86_400;

// One test, since the date is all of theirs.
#[test]
fn a_date_that_is_set_moves_no_time_to_live() {
    let patience = Duration::from_millis(300);
    let cache = HybridCache::in_memory(&Options { patience, ..Options::default() }).unwrap();
    cache.set(b"long", b"row", 3600).unwrap();
    OFF.store(DAY, SeqCst); // a wrong time server, for a moment
    assert!(cache.get(b"long").unwrap().is_some(), "what has an hour is gone");
    cache.set(b"short", b"row", 1).unwrap();
    OFF.store(-DAY, SeqCst); // and back, too far
    let Ok(Lookup::Miss(dead)) = cache.get_or_lease(b"key") else { panic!("it is empty") };
    OFF.store(-2 * DAY, SeqCst);
    thread::sleep(Duration::from_millis(2100));
    assert!(cache.get(b"short").unwrap().is_none(), "what had a second is still found");
    assert!(cache.get(b"long").unwrap().is_some());
    // patience doesn't go by it either
    let Ok(Lookup::Miss(next)) = cache.get_or_lease(b"key") else { panic!("nobody has stored") };
    assert_eq!(next.store(b"row", 1), Ok(Kept::Stored));
    drop(dead);
    // a cache that is made now goes by the same seconds
    let later = HybridCache::in_memory(&Options::default()).unwrap();
    later.set(b"short", b"row", 1).unwrap();
    OFF.store(0, SeqCst);
    assert!(later.get(b"short").unwrap().is_some());
    thread::sleep(Duration::from_millis(2100));
    assert!(later.get(b"short").unwrap().is_none());
}
