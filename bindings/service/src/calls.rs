use crate::pointers::{bytes, limit, room};
use crate::service::Service;
use crate::status::{either, DONE, EXISTS, MISS, SHORT};
use kilambosetry::{border, Error, Held, HybridCache};

/// Copies what is held to the head of the room, where it fits, and tells its length.
fn copy_out(mut held: Held, out: &mut [u8], len: &mut usize) -> u8 {
    *len = held.length();
    if *len > out.len() {
        return SHORT;
    }
    held.copy(0, out);
    DONE
}

#[no_mangle]
unsafe extern "C" fn kilambosetry_service_get(
    service: &Service,
    key: *const u8,
    key_len: usize,
    out: *mut u8,
    out_len: usize,
    len: &mut usize,
    milliseconds: i64,
) -> u8 {
    // SAFETY: the caller's.
    let (key, out) = unsafe { (bytes(key, key_len), room(out, out_len)) };
    service.call(|cache| match limit(milliseconds) {
        None => get(cache, key, out, len),
        Some(limit) => Ok(cache.read_timeout(key, limit)?.map_or(MISS, |held| copy_out(held, out, len))),
    })
}

fn get(cache: &HybridCache, key: &[u8], out: &mut [u8], len: &mut usize) -> Result<u8, Error> {
    let Some(length) = cache.get_into(key, out)? else { return Ok(MISS) };
    *len = length;
    Ok(either(length <= out.len(), DONE, SHORT))
}

#[no_mangle]
unsafe extern "C" fn kilambosetry_service_read(
    service: &Service,
    key: *const u8,
    key_len: usize,
    value: &mut Held,
    milliseconds: i64,
) -> u8 {
    // SAFETY: the caller's.
    let key = unsafe { bytes(key, key_len) };
    border::empty(value);
    service.call(|cache| {
        let found = match limit(milliseconds) {
            None => cache.read(key)?,
            Some(limit) => cache.read_timeout(key, limit)?,
        };
        Ok(hand_out(found, value))
    })
}

/// Hands out what was found.
pub fn hand_out(found: Option<Held>, value: &mut Held) -> u8 {
    let Some(held) = found else { return MISS };
    *value = held;
    DONE
}

#[no_mangle]
unsafe extern "C" fn kilambosetry_service_set(
    service: &Service,
    key: *const u8,
    key_len: usize,
    value: *const u8,
    value_len: usize,
    ttl: u32,
) -> u8 {
    // SAFETY: the caller's.
    let (key, value) = unsafe { (bytes(key, key_len), bytes(value, value_len)) };
    service.call(|cache| cache.set(key, value, ttl).map(|()| DONE))
}

#[no_mangle]
unsafe extern "C" fn kilambosetry_service_add(
    service: &Service,
    key: *const u8,
    key_len: usize,
    value: *const u8,
    value_len: usize,
    ttl: u32,
) -> u8 {
    // SAFETY: the caller's.
    let (key, value) = unsafe { (bytes(key, key_len), bytes(value, value_len)) };
    service.call(|cache| Ok(either(cache.add(key, value, ttl)?, DONE, EXISTS)))
}

#[no_mangle]
unsafe extern "C" fn kilambosetry_service_delete(service: &Service, key: *const u8, key_len: usize) -> u8 {
    // SAFETY: the caller's.
    let key = unsafe { bytes(key, key_len) };
    service.call(|cache| Ok(either(cache.delete(key)?, DONE, MISS)))
}

#[no_mangle]
unsafe extern "C" fn kilambosetry_service_invalidate(service: &Service, key: *const u8, key_len: usize) -> u8 {
    // SAFETY: the caller's.
    let key = unsafe { bytes(key, key_len) };
    service.call(|cache| {
        cache.invalidate(key);
        Ok(DONE)
    })
}

#[no_mangle]
extern "C" fn kilambosetry_service_clear(service: &Service) -> u8 {
    service.call(|cache| {
        cache.clear();
        Ok(DONE)
    })
}

#[no_mangle]
extern "C" fn kilambosetry_service_flush(service: &Service) -> u8 {
    service.call(|cache| cache.flush().map(|()| DONE))
}
