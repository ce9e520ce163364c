//! What a cache forgets, for who listens.
use crate::pointers::{limit, room};
use crate::service::Service;
use crate::status::{DONE, EMPTY};
use kilambosetry::{Cause, Error, Gone, Listener};
use std::sync::{Mutex, MutexGuard, PoisonError};

/// A key that is gone, or so many: `kilambosetry_gone`.
#[repr(C)]
pub struct ServiceGone {
    count: u64,
    missed: u64,
    cause: u8,
    has_key: bool,
}

// The causes by their numbers in the header.
fn number_of(cause: Cause) -> u8 {
    match cause {
        Cause::Deleted => 1,
        Cause::Changed => 2,
        Cause::Expired => 3,
        Cause::Unread => 4,
        Cause::Cleared => 5,
        Cause::NoFlash => 6,
        Cause::Tombstone => 7,
        Cause::NotAdmitted => 8,
        Cause::TooLarge => 9,
        Cause::QueueFull => 10,
        Cause::EvictedExpired => 11,
        Cause::BucketFull => 12,
        Cause::Reclaimed => 13,
        Cause::NoCleanRegion => 14,
        Cause::Collision => 15,
        Cause::Fault => 16,
        _ => 0,
    }
}

/// Who listens, if somebody does.
#[derive(Default)]
pub struct Listening(Mutex<Option<Listener>>);

impl Listening {
    fn lock(&self) -> MutexGuard<'_, Option<Listener>> {
        self.0.lock().unwrap_or_else(PoisonError::into_inner)
    }
}

#[no_mangle]
extern "C" fn kilambosetry_service_listen(service: &Service, room: usize) -> u8 {
    service.call(|cache| {
        // (who waits for the one of before hears its end, and lets go of it)
        let listener = cache.listen(room)?;
        *service.listening.lock() = (room > 0).then_some(listener);
        Ok(DONE)
    })
}

#[no_mangle]
unsafe extern "C" fn kilambosetry_service_next_gone(
    service: &Service,
    key: *mut u8,
    key_room: usize,
    key_len: &mut usize,
    gone: &mut ServiceGone,
    milliseconds: i64,
) -> u8 {
    // SAFETY: the caller's.
    let out = unsafe { room(key, key_room) };
    service.call(|_| {
        let mut listening = service.listening.lock();
        let Some(listener) = listening.as_mut() else { return Ok(EMPTY) };
        let next = match limit(milliseconds) {
            None => listener.next(),
            Some(limit) => listener.next_within(limit),
        };
        let Some(Gone { key, cause, count, .. }) = next else {
            return Err(if listener.is_over() { Error::Closed } else { Error::TimedOut });
        };
        *gone = ServiceGone { count, missed: listener.missed(), cause: number_of(cause), has_key: key.is_some() };
        let key = key.unwrap_or_default();
        *key_len = key.len().min(out.len());
        out[..*key_len].copy_from_slice(&key[..*key_len]);
        Ok(DONE)
    })
}
