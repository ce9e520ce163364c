//! Which types a panic may pass, so that a caller need not assert it; and that a cache goes on behind one.
use kilambosetry::{
    Added, Aged, Cache, Came, Cause, Change, Clock, Copied, Counts, DeviceCounts, Engine, EngineWithDevice, Error,
    Flash, Found, GetAsync, Gone, Held, Histogram, HybridCache, Kept, Lease, LeaseAsync, Listener, LoadError, Loaded,
    Lookup, Losses, Namespace, Numbers, Operation, Options, PageFile, Pool, Refresh, Refused, Reply, Served,
    ShardedCache, Stats, Take, Ticket, Times, Turn, Usage, Value,
};
use std::io;
use std::panic::{self, RefUnwindSafe, UnwindSafe};
use std::sync::atomic::{AtomicBool, AtomicU64, Ordering::SeqCst};
use std::sync::Arc;

fn passes<T: UnwindSafe + RefUnwindSafe>() {}
fn changes_threads<T: Send>() {}
fn is_shared<T: Send + Sync>() {}

#[test]
fn a_panic_may_pass_each_of_these() {
    passes::<HybridCache>();
    passes::<Options>();
    passes::<Clock>();
    passes::<(Lease, Lookup, Ticket, Kept, Turn, Loaded)>();
    passes::<(Change, GetAsync<'static>, LeaseAsync<'static>)>();
    passes::<(Value, Held)>();
    passes::<(Cache, ShardedCache, Engine, EngineWithDevice<()>)>();
    passes::<(Found, Copied, Added, Reply, Operation, Came, Take)>();
    passes::<(Pool, Flash, Numbers)>();
    passes::<(Stats, Counts, Losses, Usage, DeviceCounts)>();
    passes::<(Refused, Error, LoadError<Error>)>();
    passes::<PageFile>();
    passes::<(Namespace, Refresh, Aged, Served)>();
    passes::<(Listener, Gone, Cause, Times, Histogram)>();
}

#[test]
fn threads_share_these_or_hand_them_on() {
    is_shared::<(HybridCache, ShardedCache, Options, Clock, PageFile)>();
    is_shared::<(Namespace, Aged, Served, Listener, Gone, Times, Histogram)>();
    is_shared::<(Lease, Change, Value, Stats, Numbers, Error, LoadError<io::Error>)>();
    changes_threads::<(Cache, Engine, Held, Lookup, Take)>();
    changes_threads::<(GetAsync<'static>, LeaseAsync<'static>)>();
}

#[test]
fn a_cache_goes_on_where_its_clock_panicked() {
    let (second, breaks) = (Arc::new(AtomicU64::new(1)), Arc::new(AtomicBool::new(false)));
    let (hand, broken) = (Arc::clone(&second), Arc::clone(&breaks));
    let clock = Clock::new(move || {
        assert!(!broken.load(SeqCst), "the clock broke");
        hand.load(SeqCst)
    });
    let cache = HybridCache::in_memory(&Options { clock, ..Options::default() }).unwrap();
    cache.set(b"key", b"value", 10).unwrap();
    breaks.store(true, SeqCst);
    assert!(panic::catch_unwind(|| cache.get(b"key")).is_err());
    assert!(panic::catch_unwind(|| cache.set(b"key", b"other", 10)).is_err());
    breaks.store(false, SeqCst);
    assert_eq!(cache.get(b"key").unwrap().as_deref(), Some(&b"value"[..]));
    second.store(11, SeqCst);
    assert_eq!(cache.get(b"key"), Ok(None));
}
