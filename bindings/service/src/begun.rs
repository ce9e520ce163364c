use crate::calls::hand_out;
use crate::pointers::{bytes, limit};
use crate::service::Service;
use crate::status::{EMPTY, TIMED_OUT, WAITS};
use kilambosetry::border::{self, BegunGet, GetNumbers};
use kilambosetry::Held;

/// `kilambosetry_begun`.
#[repr(C)]
pub struct ServiceBegun {
    call: u64,
    shard: u16,
    waits: bool,
}

impl ServiceBegun {
    fn numbers(&self) -> GetNumbers {
        GetNumbers { call: self.call, shard: self.shard }
    }
}

#[no_mangle]
unsafe extern "C" fn kilambosetry_service_begin(
    service: &Service,
    key: *const u8,
    key_len: usize,
    value: &mut Held,
    begun: &mut ServiceBegun,
) -> u8 {
    // SAFETY: the caller's.
    let key = unsafe { bytes(key, key_len) };
    border::empty(value);
    begun.waits = false;
    service.call(|cache| {
        Ok(match cache.begin_get(key)? {
            BegunGet::Answered(found) => hand_out(found, value),
            BegunGet::Waits(GetNumbers { call, shard }) => {
                *begun = ServiceBegun { call, shard, waits: true };
                WAITS
            }
        })
    })
}

#[no_mangle]
extern "C" fn kilambosetry_service_end(
    service: &Service,
    begun: &mut ServiceBegun,
    value: &mut Held,
    milliseconds: i64,
) -> u8 {
    if !begun.waits {
        return EMPTY;
    }
    let status = service.call(|cache| {
        let found = cache.end_get(begun.numbers(), limit(milliseconds))?;
        border::empty(value);
        Ok(hand_out(found, value))
    });
    begun.waits = status == TIMED_OUT;
    status
}

#[no_mangle]
extern "C" fn kilambosetry_service_forget(service: &Service, begun: &mut ServiceBegun) {
    if begun.waits {
        service.ask(|cache| cache.forget_get(begun.numbers()));
    }
    begun.waits = false;
}
