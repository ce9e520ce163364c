//! Times to live go by a clock that doesn't step. The date is what a `clock_gettime` of this test's own says of it.
#![cfg(all(target_os = "linux", target_pointer_width = "64"))]
mod support;

use std::sync::atomic::{AtomicI64, Ordering::SeqCst};
use std::thread;
use std::time::{Duration, SystemTime, UNIX_EPOCH};
use support::{in_memory, Client};

#[repr(C)]
struct Time {
    seconds: i64,
    nanoseconds: i64,
}

extern "C" {
    fn syscall(number: i64, clock: i64, time: *mut Time) -> i64;
}

// How far the date is set off.
static OFF: AtomicI64 = AtomicI64::new(0);

#[cfg(target_arch = "x86_64")]
const CLOCK_GETTIME: i64 = 228;
#[cfg(target_arch = "aarch64")]
const CLOCK_GETTIME: i64 = 113;

const REALTIME: i32 = 0;
const REALTIME_COARSE: i32 = 5;

// It stands in place of the C library's, for all of this program.
#[no_mangle]
unsafe extern "C" fn clock_gettime(clock: i32, time: *mut Time) -> i32 {
    let failed = syscall(CLOCK_GETTIME, clock.into(), time);
    if matches!(clock, REALTIME | REALTIME_COARSE) {
        (*time).seconds += OFF.load(SeqCst);
    }
    failed as i32
}

const HOUR: i64 = 3600;

fn date() -> u64 {
    SystemTime::now().duration_since(UNIX_EPOCH).unwrap().as_secs()
}

// One test, since the date is all of theirs.
#[test]
fn a_date_that_is_set_moves_no_time_to_live() {
    let running = in_memory(&[]);
    let mut client = Client::of(&running);
    assert_eq!(client.ask("set lasts 0 300 1\r\nx\r\n"), "STORED");
    OFF.store(HOUR, SeqCst); // a wrong time server, for a moment
    assert_eq!(client.value("lasts").as_deref(), Some("x"), "what has five minutes is gone");
    assert_eq!(client.ask("set brief 0 2 1\r\nx\r\n"), "STORED");
    assert_eq!(client.ask("ms short 1 T2\r\nx\r\n"), "HD");
    OFF.store(0, SeqCst); // and set right
    thread::sleep(Duration::from_millis(3100));
    assert_eq!(client.value("brief"), None, "what had two seconds is found");
    assert_eq!(client.ask("mg short t\r\n"), "EN");
    assert_eq!(client.value("lasts").as_deref(), Some("x"));
    // a date that a client gives is one of the date as it is then
    OFF.store(HOUR, SeqCst);
    assert_eq!(client.ask(&format!("set dated 0 {} 1\r\nx\r\n", date() + 100)), "STORED");
    assert_eq!(client.ask(&format!("set past 0 {} 1\r\nx\r\n", date() - 1)), "STORED");
    OFF.store(-HOUR, SeqCst);
    let left = client.ask("mg dated t\r\n");
    let left: u64 = left.strip_prefix("HD t").unwrap_or_else(|| panic!("{left}")).parse().unwrap();
    assert!((70..=100).contains(&left), "{left} seconds are left of 100");
    assert_eq!(client.value("past"), None);
    assert!(running.stop());
}
