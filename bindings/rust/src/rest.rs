//! How the shards of a cache that is to be kept come to rest.
use crate::held::zeros;
use crate::keep::KeepWhat;
use crate::masked::Pad;
use crate::numbers::{CHARGE, MOST_BYTES};
use crate::shards::{drawn, Locked, Rest, Shards, PAUSE};
use crate::{Engine, Refused, Usage};
use std::time::Instant;

// The length of the keys by which items are pushed out, and the longest value.
const LONGEST_KEY: usize = 255;
const LONGEST_VALUE: u64 = 1 << 20;

impl Shards {
    /// Has no call begin any more, and waits until those that are under way are over, until this moment at most. Where memory isn't to
    /// be kept, what it has goes to flash first, until `pushed`.
    pub fn rest(&self, what: KeepWhat, pushed: Instant, until: Instant) {
        self.come_to(Rest::Shut);
        if what == KeepWhat::Flash && self.device.is_some() {
            (0..self.len()).for_each(|shard| self.push_out(shard, pushed));
            (0..self.len()).for_each(|shard| self.wait_until(shard, pushed, |state| state.has_written()));
        }
        self.come_to(Rest::Still);
        (0..self.len()).for_each(|shard| self.wait_until(shard, until, |state| state.rests()));
    }

    fn come_to(&self, rest: Rest) {
        for shard in 0..self.len() {
            let mut state = self.lock(shard);
            state.rest = rest;
            self.leave(shard, state); // (rings those who end what is under way)
        }
    }

    fn wait_until(&self, shard: usize, until: Instant, mut is_so: impl FnMut(&mut Locked<'_>) -> bool) {
        let mut state = self.lock(shard);
        while !is_so(&mut state) && Instant::now() < until {
            if state.rest == Rest::Shut {
                self.ring_writers(shard);
            }
            state = self.wait_for_rest(shard, state);
        }
    }

    /// The engine of a shard that is closed and at rest, with the pad of its keys. None: it isn't at rest, or a key whose row is being
    /// changed couldn't be deleted.
    pub fn take_at_rest(&self, shard: usize) -> Option<(Engine, Pad)> {
        let mut state = self.lock(shard);
        if !state.is_closed() || !state.rests() || !state.delete_barred() {
            return None;
        }
        Some(state.engine.take())
    }

    // Has the items of the shard leave memory, as others push them out that are stored for that alone and deleted again.
    fn push_out(&self, shard: usize, until: Instant) {
        for pool in 0..self.share.pools {
            let mut pushed = 0;
            let done = self.push_out_of(shard, pool, until, &mut pushed);
            let mut state = self.lock(shard);
            for number in 0..pushed {
                // (where one can't be deleted it is kept, for nobody who knows its key)
                let _ = state.engine.now().delete(&key_of(number));
            }
            self.leave(shard, state);
            if done.is_err() {
                return;
            }
        }
    }

    fn push_out_of(&self, shard: usize, pool: u8, until: Instant, pushed: &mut u64) -> Result<(), Refused> {
        let queue = self.numbers.flash.map_or(1, |flash| flash.queue);
        let value = zeros(LONGEST_VALUE as usize)?;
        while Instant::now() < until {
            let mut state = self.lock(shard);
            let usage = state.engine.now().usage(pool)?;
            if usage.items <= *pushed {
                return Ok(());
            }
            if state.engine.now().queue_length() > queue / 2 {
                self.ring_writers(shard);
                drop(self.wait_for_rest(shard, state));
                continue;
            }
            let length = length_for(&usage, queue / 4) as usize;
            let stored = state.engine.now().set(pool, &key_of(*pushed), &value[..length], 0);
            self.leave(shard, state);
            match stored {
                Ok(()) => *pushed += 1,
                Err(Refused::NO_MEMORY) => std::thread::sleep(PAUSE),
                Err(refused) => return Err(refused),
            }
        }
        Ok(())
    }
}

// How long a value is that pushes out some so many items, as far as the pool has room for it.
fn length_for(usage: &Usage, items: u64) -> u64 {
    let mean = usage.bytes / usage.items.max(1) + 1;
    let most = usage.limit_bytes.min(MOST_BYTES).saturating_sub(CHARGE + LONGEST_KEY as u64);
    (mean * items.max(1)).min(LONGEST_VALUE).min(most)
}

// A key that nobody else has, since it is drawn by chance.
fn key_of(number: u64) -> [u8; LONGEST_KEY] {
    use std::sync::OnceLock;
    static DRAWN: OnceLock<[u8; 16]> = OnceLock::new();
    let mut key = [0; LONGEST_KEY];
    key[..16].copy_from_slice(DRAWN.get_or_init(drawn));
    key[16..24].copy_from_slice(&number.to_le_bytes());
    key
}
