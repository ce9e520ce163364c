//! What a face in another language needs, and no Rust program: leases, changes and begun gets as plain numbers, since none of this
//! crate's types passes such a border. They own nothing: who loses one has lost no memory, and who uses one twice is told.
use crate::digest::digest_of;
use crate::held::copied;
use crate::hybrid::held_of;
use crate::loads::{after, Outcome};
use crate::shared;
use crate::{Error, Found, Held, HybridCache, Lease, Refused};
use std::time::Duration;

/// What a [`Lease`] is known by, beside its key.
#[repr(C)]
#[derive(Clone, Copy, Debug, PartialEq, Eq)]
pub struct LeaseNumbers {
    /// The shard's number, which no other cache of the process has.
    pub cache: u64,
    /// When the key was missed.
    pub ticket: u64,
    /// The number of the load; 0, where nobody waits for it.
    pub load: u64,
    /// A digest of the key.
    pub key: u64,
}

/// What a [`Change`](crate::Change) is known by, beside its key.
#[repr(C)]
#[derive(Clone, Copy, Debug, PartialEq, Eq)]
pub struct ChangeNumbers {
    /// The shard's number, which no other cache of the process has.
    pub cache: u64,
    /// The number of the change, which no other of the shard has.
    pub change: u64,
    /// A digest of the key.
    pub key: u64,
}

/// What a get that waits is known by.
#[repr(C)]
#[derive(Clone, Copy, Debug, PartialEq, Eq)]
pub struct GetNumbers {
    /// The number of the call.
    pub call: u64,
    /// Its shard.
    pub shard: u16,
}

/// What a get comes to that is begun.
#[derive(Debug)]
pub enum BegunGet {
    /// It is answered.
    Answered(Option<Held>),
    /// It waits. It is to be ended or forgotten.
    Waits(GetNumbers),
}

/// A box, or a refusal.
pub fn boxed<T>(value: T) -> Result<Box<T>, Refused> {
    shared::boxed(value)
}

/// Frees what the handle holds.
pub fn empty(held: &mut Held) {
    *held = Held::none();
}

/// The lease's numbers; none, where nothing can be stored by it. Who waits for its load then looks again.
#[must_use]
pub fn numbers_of(mut lease: Lease) -> Option<LeaseNumbers> {
    if lease.ticket.is_none() {
        lease.finish(Outcome::Look);
    }
    let ticket = lease.ticket?;
    let load = lease.load.take().unwrap_or(0);
    if let Some(timed) = lease.timed.take() {
        timed.leave(); // (when it is over isn't known here)
    }
    let state = lease.cache.shards().lock(lease.shard);
    let (cache, ticket) = (state.engine.number(), state.engine.number_of(ticket));
    Some(LeaseNumbers { cache, ticket, load, key: digest_of(&lease.key) })
}

impl HybridCache {
    // The number of the key's shard.
    fn number_of_shard(&self, key: &[u8]) -> u64 {
        self.shards().lock(self.shards().of(key)).engine.number()
    }

    /// The lease of these numbers. `None`: it is another key's, or another cache's. Refused with [`Refused::NO_MEMORY`]; who waits
    /// for its load then looks again.
    pub fn lease_of(&self, key: &[u8], numbers: &LeaseNumbers) -> Result<Option<Lease>, Refused> {
        let LeaseNumbers { cache, ticket, load, key: digest } = *numbers;
        if digest != digest_of(key) || self.number_of_shard(key) != cache {
            return Ok(None);
        }
        let shard = self.shards().of(key);
        let ticket = self.shards().lock(shard).engine.ticket_of(ticket);
        let copy = copied(key);
        if copy.is_err() && load != 0 {
            self.shards().finish_load(shard, key, load, Outcome::Look);
        }
        let load = (load != 0).then_some(load);
        Ok(Some(Lease { cache: self.clone(), shard, key: copy?, ticket, load, head: None, timed: None }))
    }

    /// Begins a change that is ended by its numbers. `None`: there is no bar, since the cache can't have the key, or is closed.
    pub fn begin_change_by_numbers(&self, key: &[u8]) -> Option<ChangeNumbers> {
        let change = self.begin_change(key).leave()?;
        Some(ChangeNumbers { cache: self.number_of_shard(key), change, key: digest_of(key) })
    }

    /// Ends a change, and answers whether it is one of this key and this cache that isn't over. `is_known`: whether it is known if the row was changed.
    pub fn end_change_by_numbers(&self, key: &[u8], numbers: &ChangeNumbers, is_known: bool) -> bool {
        let is_ours = numbers.key == digest_of(key) && self.number_of_shard(key) == numbers.cache;
        is_ours && self.end_change(self.shards().of(key), key, numbers.change, is_known)
    }

    /// Begins a get. The fillers make the reads for which it would have to wait.
    pub fn begin_get(&self, key: &[u8]) -> Result<BegunGet, Error> {
        let shards = self.shards();
        let shard = shards.of(key);
        let mut state = shards.enter(shard)?;
        let held = match state.get(key)? {
            Found::Hit(held) => Some(held),
            Found::Miss => None,
            Found::Waits(call) => {
                let mut state = shards.begin_waiting(shard, state, call);
                match state.calls.take(call) {
                    Some(answer) => held_of(answer?),
                    None => return Ok(BegunGet::Waits(GetNumbers { call, shard: shard as u16 })),
                }
            }
        };
        Ok(BegunGet::Answered(shards.row_of(held)))
    }

    /// What a get that was begun found, once it is answered. Where that takes longer than the limit, it is [`Error::TimedOut`], and
    /// the get waits on. Refused with [`Refused::UNKNOWN_CALL`] where it was ended.
    pub fn end_get(&self, get: GetNumbers, limit: Option<Duration>) -> Result<Option<Held>, Error> {
        let (shards, shard) = (self.shards(), usize::from(get.shard));
        let state = shards.lock(shard);
        if !state.calls.is_listed(get.call) {
            return Err(Error::Refused(Refused::UNKNOWN_CALL));
        }
        match shards.wait_on(shard, state, get.call, limit.map(after)) {
            Ok(answer) => Ok(shards.row_of(held_of(answer?))),
            Err(_) => Err(Error::TimedOut),
        }
    }

    /// Gives up a get that was begun.
    pub fn forget_get(&self, get: GetNumbers) {
        self.shards().forget(usize::from(get.shard), get.call);
    }
}
