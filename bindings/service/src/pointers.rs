use std::slice;
use std::time::Duration;

/// The bytes of a caller.
///
/// # Safety
/// They are valid for the length, and nobody writes them during the call.
pub unsafe fn bytes<'a>(at: *const u8, len: usize) -> &'a [u8] {
    match len {
        0 => &[],
        // SAFETY: the caller's.
        _ => unsafe { slice::from_raw_parts(at, len) },
    }
}

/// The room of a caller, for bytes that are written.
///
/// # Safety
/// It is valid for the length, and nobody else has it during the call.
pub unsafe fn room<'a>(at: *mut u8, len: usize) -> &'a mut [u8] {
    // SAFETY: the caller's.
    unsafe { list(at, len) }
}

/// The list of a caller, which is read and written.
///
/// # Safety
/// It is valid for so many, and nobody else has it during the call.
pub unsafe fn list<'a, T>(at: *mut T, count: usize) -> &'a mut [T] {
    match count {
        0 => &mut [],
        // SAFETY: the caller's.
        _ => unsafe { slice::from_raw_parts_mut(at, count) },
    }
}

/// A limit in milliseconds; none, where it never passes.
pub fn limit(milliseconds: i64) -> Option<Duration> {
    u64::try_from(milliseconds).ok().map(Duration::from_millis)
}
