use std::fmt;
use std::sync::atomic::{AtomicU64, Ordering::Relaxed};

// The number of the next cache.
static NEXT: AtomicU64 = AtomicU64::new(0);

/// A number that no other cache of this process has.
pub(crate) fn next_number() -> u64 {
    NEXT.fetch_add(1, Relaxed)
}

/// A moment of a cache: how many changes of keys it had seen. What is loaded after a ticket was handed out may be stored with
/// it, unless its key was changed in between. It is good for as long as one likes, for every key of its cache (of its shard,
/// where there are shards), and for no other cache.
#[derive(Clone, Copy, Debug, PartialEq, Eq, Hash)]
pub struct Ticket {
    pub(crate) cache: u64,
    pub(crate) number: u64,
}

/// What became of a value that was stored with a ticket.
#[derive(Clone, Copy, Debug, PartialEq, Eq)]
#[must_use = "a stale value wasn't stored"]
pub enum Kept {
    /// It is stored.
    Stored,
    /// Its key, or another of the same slot, was changed since the ticket was handed out: nothing is stored. It is no error:
    /// serve what was loaded, or get it again.
    Stale,
}

impl fmt::Display for Kept {
    fn fmt(&self, f: &mut fmt::Formatter<'_>) -> fmt::Result {
        f.write_str(match self {
            Kept::Stored => "stored",
            Kept::Stale => "stale",
        })
    }
}

/// Whose turn it is to load a key.
#[derive(Clone, Copy, Debug, PartialEq, Eq)]
#[must_use]
pub enum Turn {
    /// The caller's.
    Yours,
    /// Another's, who began at this second by the cache's clock.
    Taken {
        /// The second.
        since: u64,
    },
}
