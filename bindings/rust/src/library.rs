//! The library's calls, as kilambosetry.h declares them.
use std::ffi::c_void;
use std::ptr;

/// What holds a cache, a value that is read, a page of flash, or an image.
#[repr(C)]
#[derive(Debug)]
pub struct Handle {
    at: *mut c_void,
    full: bool,
}

impl Handle {
    pub const fn none() -> Handle {
        Handle { at: ptr::null_mut(), full: false }
    }

    pub const fn is_full(&self) -> bool {
        self.full
    }
}

/// A device operation.
#[repr(C)]
pub struct Operation {
    pub page: u32,
    pub writes: bool,
}

/// What holds an image.
pub type Image = Handle;

/// Which image it is: the two halves of its seal, the second at which its cache is closed, or that it is as the image is read, and
/// the shard, from 0, and of how many.
#[repr(C)]
#[derive(Clone, Copy, Debug, PartialEq, Eq)]
pub struct Mark {
    pub seal_first: u64,
    pub seal_last: u64,
    pub second: u64,
    pub shard: u32,
    pub shards: u32,
}

// Why an image isn't taken.
pub const NOT_WHOLE: u8 = 107;
pub const OTHER_VERSION: u8 = 108;
pub const OTHER_CONFIG: u8 = 109;
pub const OTHER_SEAL: u8 = 110;
pub const TOO_OLD: u8 = 111;
pub const CLOCK_WENT_BACK: u8 = 112;
pub const UNFIT: u8 = 113;

extern "C" {
    pub fn kilambosetry_close(cache: *mut Handle, mark: *const Mark, image: *mut Handle) -> u8;
    pub fn kilambosetry_image_next(image: *mut Handle, len: *mut usize) -> u8;
    pub fn kilambosetry_image_copy(
        image: *mut Handle,
        from: usize,
        out: *mut u8,
        out_len: usize,
        len: *mut usize,
    ) -> u8;
    pub fn kilambosetry_image_free(image: *mut Handle);
    pub fn kilambosetry_load(
        image: *mut Handle,
        pools: *const crate::Pool,
        pools_len: usize,
        mark: *const Mark,
        at_most: u64,
    ) -> u8;
    pub fn kilambosetry_load_with_flash(
        image: *mut Handle,
        pools: *const crate::Pool,
        pools_len: usize,
        flash: *const crate::Flash,
        mark: *const Mark,
        at_most: u64,
    ) -> u8;
    pub fn kilambosetry_image_take(image: *mut Handle, frame: *const u8, frame_len: usize) -> u8;
    pub fn kilambosetry_load_end(image: *mut Handle, cache: *mut Handle, slots: u32) -> u8;
}

extern "C" {
    pub fn kilambosetry_new_with_flash(
        cache: *mut Handle,
        pools: *const crate::Pool,
        pools_len: usize,
        flash: *const crate::Flash,
    ) -> u8;
    pub fn kilambosetry_take_reply(cache: *mut Handle, call: u64, value: *mut Handle) -> u8;
    pub fn kilambosetry_writer_take(cache: *mut Handle, job: *mut u64) -> u8;
    pub fn kilambosetry_filler_take(cache: *mut Handle, job: *mut u64) -> u8;
    pub fn kilambosetry_writer_has_work(cache: *mut Handle) -> u8;
    pub fn kilambosetry_filler_has_work(cache: *mut Handle) -> u8;
    pub fn kilambosetry_next_reply(cache: *mut Handle, call: *mut u64) -> u8;
    pub fn kilambosetry_reclaim(cache: *mut Handle) -> u8;
    pub fn kilambosetry_queue_length(cache: *mut Handle, length: *mut u64) -> u8;
    pub fn kilambosetry_is_expired(cache: *mut Handle, key: *const u8, key_len: usize) -> u8;
    pub fn kilambosetry_page_new(page: *mut Handle, bytes: *const u8, bytes_len: usize) -> u8;
    pub fn kilambosetry_order_page(cache: *mut Handle, job: u64, operation: *mut Operation, page: *mut Handle) -> u8;
    pub fn kilambosetry_finish_page(cache: *mut Handle, job: u64, page: *mut Handle) -> u8;
    pub fn kilambosetry_finish_write(cache: *mut Handle, job: u64) -> u8;
    pub fn kilambosetry_finish_failed(cache: *mut Handle, job: u64) -> u8;
    pub fn kilambosetry_new(cache: *mut Handle, pools: *const crate::Pool, pools_len: usize) -> u8;
    pub fn kilambosetry_new_with_slots(
        cache: *mut Handle,
        pools: *const crate::Pool,
        pools_len: usize,
        slots: u32,
    ) -> u8;
    pub fn kilambosetry_new_with_flash_and_slots(
        cache: *mut Handle,
        pools: *const crate::Pool,
        pools_len: usize,
        flash: *const crate::Flash,
        slots: u32,
    ) -> u8;
    pub fn kilambosetry_new_shard(cache: *mut Handle, pools: *const crate::Pool, pools_len: usize, shards: u8) -> u8;
    pub fn kilambosetry_new_shard_with_flash(
        cache: *mut Handle,
        pools: *const crate::Pool,
        pools_len: usize,
        flash: *const crate::Flash,
        shards: u8,
    ) -> u8;
    pub fn kilambosetry_shard_of(key: *const u8, key_len: usize, shards: u8) -> u8;
    pub fn kilambosetry_free(cache: *mut Handle);
    pub fn kilambosetry_tick(cache: *mut Handle, moment: u64) -> u8;
    pub fn kilambosetry_set(
        cache: *mut Handle,
        pool: u8,
        key: *const u8,
        key_len: usize,
        value: *const u8,
        value_len: usize,
        ttl: u32,
    ) -> u8;
    pub fn kilambosetry_add(
        cache: *mut Handle,
        pool: u8,
        key: *const u8,
        key_len: usize,
        value: *const u8,
        value_len: usize,
        ttl: u32,
    ) -> u8;
    pub fn kilambosetry_get(
        cache: *mut Handle,
        key: *const u8,
        key_len: usize,
        out: *mut u8,
        out_len: usize,
        len: *mut usize,
    ) -> u8;
    pub fn kilambosetry_delete(cache: *mut Handle, key: *const u8, key_len: usize) -> u8;
    pub fn kilambosetry_ticket(cache: *mut Handle, ticket: *mut u64) -> u8;
    pub fn kilambosetry_set_leased(
        cache: *mut Handle,
        ticket: u64,
        pool: u8,
        key: *const u8,
        key_len: usize,
        value: *const u8,
        value_len: usize,
        ttl: u32,
    ) -> u8;
    pub fn kilambosetry_ask_turn(
        cache: *mut Handle,
        key: *const u8,
        key_len: usize,
        patience: u64,
        since: *mut u64,
    ) -> u8;
    pub fn kilambosetry_end_turn(cache: *mut Handle, key: *const u8, key_len: usize) -> u8;
    pub fn kilambosetry_read(cache: *mut Handle, key: *const u8, key_len: usize, value: *mut Handle) -> u8;
    pub fn kilambosetry_value_length(value: *mut Handle, len: *mut usize) -> u8;
    pub fn kilambosetry_value_copy(
        value: *mut Handle,
        from: usize,
        out: *mut u8,
        out_len: usize,
        len: *mut usize,
    ) -> u8;
    pub fn kilambosetry_value_free(value: *mut Handle);
    pub fn kilambosetry_calls(cache: *mut Handle, calls: *mut u64) -> u8;
    pub fn kilambosetry_counts(cache: *mut Handle, counts: *mut crate::Counts) -> u8;
    pub fn kilambosetry_losses(cache: *mut Handle, losses: *mut crate::Losses) -> u8;
    pub fn kilambosetry_usage(cache: *mut Handle, pool: u8, usage: *mut crate::Usage) -> u8;
}
