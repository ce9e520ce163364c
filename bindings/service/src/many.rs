use crate::calls::hand_out;
use crate::pointers::{bytes, limit, list};
use crate::service::Service;
use crate::status::{answered, DONE};
use kilambosetry::{border, Held};

/// `kilambosetry_wanted`.
#[repr(C)]
pub struct ServiceWanted {
    key: *const u8,
    key_len: usize,
    value: Held,
    status: u8,
}

impl AsRef<[u8]> for ServiceWanted {
    fn as_ref(&self) -> &[u8] {
        // SAFETY: the caller's of the one call that has this.
        unsafe { bytes(self.key, self.key_len) }
    }
}

#[no_mangle]
unsafe extern "C" fn kilambosetry_service_read_many(
    service: &Service,
    wanted: *mut ServiceWanted,
    count: usize,
    milliseconds: i64,
) -> u8 {
    // SAFETY: the caller's.
    let wanted = unsafe { list(wanted, count) };
    let status = service.call(|cache| {
        wanted.iter_mut().for_each(|wanted| border::empty(&mut wanted.value));
        let found = match limit(milliseconds) {
            None => cache.read_many(wanted)?,
            Some(limit) => cache.read_many_timeout(wanted, limit)?,
        };
        for (wanted, found) in wanted.iter_mut().zip(found) {
            wanted.status = answered(|| Ok(hand_out(found?, &mut wanted.value)));
        }
        Ok(DONE)
    });
    if status != DONE {
        for wanted in wanted {
            border::empty(&mut wanted.value);
            wanted.status = status;
        }
    }
    status
}
