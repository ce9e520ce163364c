use crate::{Added, Copied, Engine, Found, Kept, Refused, Ticket};
use std::collections::hash_map::RandomState;
use std::hash::BuildHasher;
use std::ops::{Deref, DerefMut};

const MOST: usize = 255;

/// Bytes that are mixed into those of keys. They are drawn by chance, and shown to nobody.
#[derive(Clone)]
pub(crate) struct Pad([u8; MOST]);

impl Pad {
    pub const LENGTH: usize = MOST;

    fn drawn() -> Pad {
        let (drawn, mut pad) = (RandomState::new(), [0; MOST]);
        for (number, bytes) in pad.chunks_mut(8).enumerate() {
            bytes.copy_from_slice(&drawn.hash_one(number).to_le_bytes()[..bytes.len()]);
        }
        Pad(pad)
    }

    /// One that an earlier cache had.
    pub fn of(bytes: [u8; MOST]) -> Pad {
        Pad(bytes)
    }

    pub fn bytes(&self) -> &[u8; MOST] {
        &self.0
    }
}

/// A shard's engine, which is told each key with a pad mixed into its bytes that the platform draws by chance. The library's tables
/// have a hash without a secret, and there are words that make it forget what stands before them: keys that end in one would all come
/// to one place, and a hit among thousands of them would take as long as hundreds of others, with the shard locked.
pub(crate) struct Masked {
    engine: Engine,
    pad: Pad,
    // what the last key became
    other: [u8; MOST],
}

impl Masked {
    pub fn new(engine: Engine) -> Masked {
        Masked::with(engine, Pad::drawn())
    }

    /// An engine whose keys have this pad.
    pub fn with(engine: Engine, pad: Pad) -> Masked {
        Masked { engine, pad, other: [0; MOST] }
    }

    /// The pad.
    pub fn pad(&self) -> &Pad {
        &self.pad
    }

    /// The engine.
    pub fn into_engine(self) -> Engine {
        self.engine
    }

    // Calls it with the key's other bytes, which are as many, and those of no other key. (One that is too long is refused as it is.)
    #[inline]
    fn mixed<T>(&mut self, key: &[u8], call: impl FnOnce(&mut Engine, &[u8]) -> T) -> T {
        let Masked { engine, pad, other } = self;
        let Some(other) = other.get_mut(..key.len()) else { return call(engine, key) };
        for ((other, byte), pad) in other.iter_mut().zip(key).zip(&pad.0) {
            *other = byte ^ *pad;
        }
        call(engine, other)
    }

    /// As [`Engine::get`].
    #[inline]
    pub fn get(&mut self, key: &[u8]) -> Result<Found, Refused> {
        self.mixed(key, |engine, key| engine.get(key))
    }

    /// As [`Engine::get_into`].
    #[inline]
    pub fn get_into(&mut self, key: &[u8], out: &mut [u8]) -> Result<Copied, Refused> {
        self.mixed(key, |engine, key| engine.get_into(key, out))
    }

    /// As [`Engine::set`].
    #[inline]
    pub fn set(&mut self, pool: u8, key: &[u8], value: &[u8], ttl: u32) -> Result<(), Refused> {
        self.mixed(key, |engine, key| engine.set(pool, key, value, ttl))
    }

    /// As [`Engine::add`].
    pub fn add(&mut self, pool: u8, key: &[u8], value: &[u8], ttl: u32) -> Result<Added, Refused> {
        self.mixed(key, |engine, key| engine.add(pool, key, value, ttl))
    }

    /// As [`Engine::set_leased`].
    pub fn set_leased(
        &mut self,
        ticket: Ticket,
        pool: u8,
        key: &[u8],
        value: &[u8],
        ttl: u32,
    ) -> Result<Kept, Refused> {
        self.mixed(key, |engine, key| engine.set_leased(ticket, pool, key, value, ttl))
    }

    /// As [`Engine::delete`].
    #[inline]
    pub fn delete(&mut self, key: &[u8]) -> Result<bool, Refused> {
        self.mixed(key, |engine, key| engine.delete(key))
    }

    /// As [`Engine::is_expired`].
    pub fn is_expired(&mut self, key: &[u8]) -> Result<bool, Refused> {
        self.mixed(key, |engine, key| engine.is_expired(key))
    }
}

/// What has to do with no key.
impl Deref for Masked {
    type Target = Engine;

    fn deref(&self) -> &Engine {
        &self.engine
    }
}

impl DerefMut for Masked {
    fn deref_mut(&mut self) -> &mut Engine {
        &mut self.engine
    }
}
