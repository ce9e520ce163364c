use crate::service::Service;
use crate::status::{answered, either, DONE, MISS, SHORT};
use kilambosetry::{Began, Closed, NotKept, WasKept, WhyEmpty};
use std::ptr;
use std::slice;

// What a cache began with, and what came of its close, as the header has it.
const NOT_ASKED: u8 = 80;
const NO_SEAL: u8 = 81;
const NO_FILE: u8 = 82;
const OTHER_SEAL: u8 = 83;
const UNREAD: u8 = 84;
const NOT_WHOLE: u8 = 85;
const OTHER_VERSION: u8 = 86;
const OTHER_OPTIONS: u8 = 87;
const CLOCK_WENT_BACK: u8 = 88;
const TOO_OLD: u8 = 89;
const UNFIT: u8 = 90;
const NO_MEMORY: u8 = 91;
const ELSEWHERE: u8 = 92;
const CHANGED: u8 = 93;
const BUSY: u8 = 94;
const TIME_IS_UP: u8 = 95;
const UNWRITTEN: u8 = 96;

/// What a cache keeps, or has again: `kilambosetry_kept`.
#[repr(C)]
#[derive(Default)]
pub struct ServiceKept {
    status: u8,
    system: i32,
    shards: u64,
    of: u64,
    items: u64,
    flash_bytes: u64,
    bytes: u64,
    seconds: u64,
}

impl ServiceKept {
    fn nothing(status: u8) -> ServiceKept {
        ServiceKept { status, ..ServiceKept::default() }
    }
}

impl From<&Began> for ServiceKept {
    fn from(began: &Began) -> ServiceKept {
        match began {
            Began::Kept(kept) => kept.into(),
            Began::Empty(why) => ServiceKept::nothing(of_empty(*why)),
            _ => ServiceKept::nothing(UNFIT),
        }
    }
}

impl From<&WasKept> for ServiceKept {
    fn from(kept: &WasKept) -> ServiceKept {
        ServiceKept {
            status: DONE,
            system: 0,
            shards: kept.shards,
            of: kept.of,
            items: kept.items,
            flash_bytes: kept.flash_bytes,
            bytes: kept.bytes,
            seconds: kept.seconds,
        }
    }
}

fn of_empty(why: WhyEmpty) -> u8 {
    match why {
        WhyEmpty::NotAsked => NOT_ASKED,
        WhyEmpty::NoSeal => NO_SEAL,
        WhyEmpty::NoFile => NO_FILE,
        WhyEmpty::OtherSeal => OTHER_SEAL,
        WhyEmpty::Unread(_) => UNREAD,
        WhyEmpty::NotWhole => NOT_WHOLE,
        WhyEmpty::OtherVersion => OTHER_VERSION,
        WhyEmpty::OtherOptions => OTHER_OPTIONS,
        WhyEmpty::ClockWentBack => CLOCK_WENT_BACK,
        WhyEmpty::TooOld => TOO_OLD,
        WhyEmpty::NoMemory => NO_MEMORY,
        _ => UNFIT,
    }
}

impl From<Closed> for ServiceKept {
    fn from(closed: Closed) -> ServiceKept {
        let why = match closed.kept {
            Ok(saved) => {
                let (shards, of, bytes) = (saved.shards, saved.of, saved.bytes);
                let (items, flash_bytes) = (closed.stats.memory_items, closed.stats.flash_bytes);
                return ServiceKept { status: DONE, shards, of, bytes, items, flash_bytes, ..ServiceKept::default() };
            }
            Err(why) => why,
        };
        let status = match &why {
            NotKept::NotAsked => NOT_ASKED,
            NotKept::Elsewhere => ELSEWHERE,
            NotKept::Changed => CHANGED,
            NotKept::Busy => BUSY,
            NotKept::TimeIsUp => TIME_IS_UP,
            NotKept::NoMemory => NO_MEMORY,
            _ => UNWRITTEN,
        };
        let system = if let NotKept::Io(error) = &why { error.raw_os_error().unwrap_or(0) } else { 0 };
        ServiceKept { system, ..ServiceKept::nothing(status) }
    }
}

#[no_mangle]
extern "C" fn kilambosetry_service_tell_kept(service: &Service, kept: &mut ServiceKept) {
    service.ask(|cache| *kept = cache.kept().into());
}

#[no_mangle]
unsafe extern "C" fn kilambosetry_service_beside(
    service: &Service,
    out: *mut u8,
    out_len: usize,
    len: &mut usize,
) -> u8 {
    answered(|| {
        let Began::Kept(kept) = service.cache.kept() else { return Ok(MISS) };
        *len = kept.beside.len();
        let fits = kept.beside.len() <= out_len;
        if fits {
            // SAFETY: the caller has so much room there.
            unsafe { ptr::copy_nonoverlapping(kept.beside.as_ptr(), out, kept.beside.len()) };
        }
        Ok(either(fits, DONE, SHORT))
    })
}

#[no_mangle]
unsafe extern "C" fn kilambosetry_service_shut_and_keep(
    service: &Service,
    beside: *const u8,
    beside_len: usize,
    kept: &mut ServiceKept,
) {
    *kept = ServiceKept::nothing(UNWRITTEN);
    // SAFETY: the caller has so many bytes there.
    let beside = unsafe { slice::from_raw_parts(beside, beside_len) };
    if let Some(closed) = service.shut_with(beside) {
        *kept = closed.into();
    }
}
