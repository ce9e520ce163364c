use crate::pointers::{bytes, limit, room};
use crate::service::Service;
use crate::status::{either, ABSENT, DONE, EMPTY, LEASED, LOAD_FAILED, SHORT, STALE};
use kilambosetry::border::{self, ChangeNumbers, LeaseNumbers};
use kilambosetry::{Error, Held, HybridCache, Kept, Lease, Lookup};
use std::ffi::{c_char, CStr};

/// `kilambosetry_lease`.
#[repr(C)]
pub struct ServiceLease {
    numbers: LeaseNumbers,
    full: bool,
}

impl ServiceLease {
    fn put(&mut self, lease: Lease) {
        let numbers = border::numbers_of(lease);
        self.full = numbers.is_some();
        if let Some(numbers) = numbers {
            self.numbers = numbers;
        }
    }

    // The lease, which is spent; none, where it is another key's or another cache's.
    fn take(&mut self, cache: &HybridCache, key: &[u8]) -> Result<Option<Lease>, Error> {
        if !self.full {
            return Ok(None);
        }
        let lease = cache.lease_of(key, &self.numbers);
        self.full = matches!(lease, Ok(None));
        Ok(lease?)
    }
}

fn look(cache: &HybridCache, key: &[u8], milliseconds: i64) -> Result<Lookup, Error> {
    match limit(milliseconds) {
        None => cache.get_or_lease(key),
        Some(limit) => cache.get_or_lease_timeout(key, limit),
    }
}

#[no_mangle]
unsafe extern "C" fn kilambosetry_service_get_or_lease(
    service: &Service,
    key: *const u8,
    key_len: usize,
    out: *mut u8,
    out_len: usize,
    len: &mut usize,
    lease: &mut ServiceLease,
    milliseconds: i64,
) -> u8 {
    // SAFETY: the caller's.
    let (key, out) = unsafe { (bytes(key, key_len), room(out, out_len)) };
    lease.full = false;
    service.call(|cache| {
        Ok(match look(cache, key, milliseconds)? {
            Lookup::Hit(value) => {
                *len = value.len();
                either(copy(&value, out), DONE, SHORT)
            }
            Lookup::Absent => ABSENT,
            Lookup::Failed(why) => {
                *len = why.len().min(out.len());
                copy(&why.as_bytes()[..*len], out);
                LOAD_FAILED
            }
            Lookup::Miss(made) => {
                lease.put(made);
                LEASED
            }
        })
    })
}

// Copies the bytes to the head of the room, and answers whether they fit.
fn copy(bytes: &[u8], out: &mut [u8]) -> bool {
    let fits = bytes.len() <= out.len();
    if fits {
        out[..bytes.len()].copy_from_slice(bytes);
    }
    fits
}

#[no_mangle]
unsafe extern "C" fn kilambosetry_service_read_or_lease(
    service: &Service,
    key: *const u8,
    key_len: usize,
    value: &mut Held,
    lease: &mut ServiceLease,
    milliseconds: i64,
) -> u8 {
    // SAFETY: the caller's.
    let key = unsafe { bytes(key, key_len) };
    border::empty(value);
    lease.full = false;
    service.call(|cache| {
        Ok(match look(cache, key, milliseconds)? {
            Lookup::Hit(found) => {
                *value = Held::copy_of(&found)?;
                DONE
            }
            Lookup::Absent => ABSENT,
            Lookup::Failed(why) => {
                *value = Held::copy_of(why.as_bytes())?;
                LOAD_FAILED
            }
            Lookup::Miss(made) => {
                lease.put(made);
                LEASED
            }
        })
    })
}

// Ends a load by its lease, which is spent. Nothing is stored by that of another key or another cache.
unsafe fn end_load(
    service: &Service,
    lease: &mut ServiceLease,
    key: *const u8,
    key_len: usize,
    otherwise: u8,
    end: impl FnOnce(Lease) -> Result<u8, Error>,
) -> u8 {
    // SAFETY: the caller's.
    let key = unsafe { bytes(key, key_len) };
    service.call(|cache| lease.take(cache, key)?.map_or(Ok(otherwise), end))
}

fn status_of(kept: Kept) -> u8 {
    match kept {
        Kept::Stored => DONE,
        Kept::Stale => STALE,
    }
}

#[no_mangle]
unsafe extern "C" fn kilambosetry_service_store(
    service: &Service,
    lease: &mut ServiceLease,
    key: *const u8,
    key_len: usize,
    value: *const u8,
    value_len: usize,
    ttl: u32,
) -> u8 {
    // SAFETY: the caller's.
    unsafe {
        let value = bytes(value, value_len);
        end_load(service, lease, key, key_len, STALE, |lease| lease.store(value, ttl).map(status_of))
    }
}

#[no_mangle]
unsafe extern "C" fn kilambosetry_service_store_absent(
    service: &Service,
    lease: &mut ServiceLease,
    key: *const u8,
    key_len: usize,
    ttl: u32,
) -> u8 {
    // SAFETY: the caller's.
    unsafe { end_load(service, lease, key, key_len, STALE, |lease| lease.store_absent(ttl).map(status_of)) }
}

#[no_mangle]
unsafe extern "C" fn kilambosetry_service_fail(
    service: &Service,
    lease: &mut ServiceLease,
    key: *const u8,
    key_len: usize,
    why: *const c_char,
) -> u8 {
    // SAFETY: the caller's; the text ends with a zero.
    unsafe {
        let why = CStr::from_ptr(why);
        end_load(service, lease, key, key_len, EMPTY, |lease| {
            lease.fail(why.to_string_lossy());
            Ok(DONE)
        })
    }
}

#[no_mangle]
unsafe extern "C" fn kilambosetry_service_give_up(
    service: &Service,
    lease: &mut ServiceLease,
    key: *const u8,
    key_len: usize,
) -> u8 {
    // SAFETY: the caller's.
    unsafe {
        end_load(service, lease, key, key_len, EMPTY, |lease| {
            drop(lease);
            Ok(DONE)
        })
    }
}

/// `kilambosetry_change`.
#[repr(C)]
pub struct ServiceChange {
    numbers: ChangeNumbers,
    full: bool,
}

#[no_mangle]
unsafe extern "C" fn kilambosetry_service_begin_change(
    service: &Service,
    change: &mut ServiceChange,
    key: *const u8,
    key_len: usize,
) -> u8 {
    // SAFETY: the caller's.
    let key = unsafe { bytes(key, key_len) };
    change.full = false;
    service.call(|cache| {
        let Some(numbers) = cache.begin_change_by_numbers(key) else { return Ok(EMPTY) };
        *change = ServiceChange { numbers, full: true };
        Ok(DONE)
    })
}

#[no_mangle]
unsafe extern "C" fn kilambosetry_service_end_change(
    service: &Service,
    change: &mut ServiceChange,
    key: *const u8,
    key_len: usize,
    is_known: bool,
) -> u8 {
    // SAFETY: the caller's.
    let key = unsafe { bytes(key, key_len) };
    if !change.full {
        return EMPTY;
    }
    service.call(|cache| {
        let is_ended = cache.end_change_by_numbers(key, &change.numbers, is_known);
        change.full = !is_ended;
        Ok(either(is_ended, DONE, EMPTY))
    })
}
