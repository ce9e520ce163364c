//! What a face in another language has of a cache: leases, changes and begun gets by their numbers, values by handles, and limits.
use kilambosetry::border::{self, BegunGet, GetNumbers};
use kilambosetry::{Error, Held, HybridCache, Kept, Lookup, Options, Refused};
use std::time::{Duration, Instant};

const SHORT: Duration = Duration::from_millis(20);

fn cache() -> HybridCache {
    HybridCache::in_memory(&Options { unknown_for: Duration::from_secs(60), ..Options::default() }).unwrap()
}

fn missed(cache: &HybridCache, key: &[u8]) -> kilambosetry::Lease {
    match cache.get_or_lease_timeout(key, SHORT) {
        Ok(Lookup::Miss(lease)) => lease,
        other => panic!("{other:?}"),
    }
}

fn bytes_of(held: Option<Held>) -> Option<Vec<u8>> {
    held.map(|mut held| held.to_vec())
}

#[test]
fn a_lease_stores_by_its_numbers_for_its_key_and_its_cache_alone() {
    let (cache, other) = (cache(), cache());
    let numbers = border::numbers_of(missed(&cache, b"a")).unwrap();
    assert!(cache.lease_of(b"b", &numbers).unwrap().is_none());
    assert!(other.lease_of(b"a", &numbers).unwrap().is_none());
    let lease = cache.lease_of(b"a", &numbers).unwrap().unwrap();
    assert_eq!(lease.store(b"row", 0), Ok(Kept::Stored));
    let again = cache.lease_of(b"a", &numbers).unwrap().unwrap();
    assert_eq!(again.store(b"once more", 0), Ok(Kept::Stale));
    assert_eq!(cache.get(b"a").unwrap().as_deref(), Some(&b"row"[..]));
}

#[test]
fn who_waits_for_a_load_does_so_until_his_limit() {
    let cache = cache();
    let lease = missed(&cache, b"a");
    let begin = Instant::now();
    assert!(matches!(cache.get_or_lease_timeout(b"a", SHORT), Err(Error::TimedOut)));
    assert!(begin.elapsed() >= SHORT);
    // (the load goes on)
    assert_eq!(lease.store(b"row", 0), Ok(Kept::Stored));
    assert!(matches!(cache.get_or_lease_timeout(b"a", SHORT), Ok(Lookup::Hit(_))));
}

#[test]
fn a_change_bars_its_key_until_it_is_ended_by_its_numbers() {
    let (cache, other) = (cache(), cache());
    let change = cache.begin_change_by_numbers(b"a").unwrap();
    assert_eq!(missed(&cache, b"a").store(b"old", 0), Ok(Kept::Stale));
    assert!(!cache.end_change_by_numbers(b"b", &change, true));
    assert!(!other.end_change_by_numbers(b"a", &change, true));
    assert_eq!(missed(&cache, b"a").store(b"old", 0), Ok(Kept::Stale));
    assert!(cache.end_change_by_numbers(b"a", &change, true));
    assert_eq!(missed(&cache, b"a").store(b"new", 0), Ok(Kept::Stored));
    // it isn't known what came of this one
    // a copy of it ends nothing more, also where another change of the key stands
    let another = cache.begin_change_by_numbers(b"a").unwrap();
    cache.delete(b"a").unwrap();
    assert!(!cache.end_change_by_numbers(b"a", &change, true));
    assert_eq!(missed(&cache, b"a").store(b"amid another", 0), Ok(Kept::Stale));
    assert!(cache.end_change_by_numbers(b"a", &another, true));
    let change = cache.begin_change_by_numbers(b"a").unwrap();
    assert!(cache.end_change_by_numbers(b"a", &change, false));
    assert_eq!(missed(&cache, b"a").store(b"old", 0), Ok(Kept::Stale));
    assert!(cache.begin_change_by_numbers(&[0; 256]).is_none());
}

#[test]
fn a_value_is_read_by_a_handle_and_what_says_that_there_is_none_is_not_shown() {
    let cache = cache();
    cache.set(b"a", b"row", 0).unwrap();
    assert_eq!(missed(&cache, b"b").store_absent(0), Ok(Kept::Stored));
    assert_eq!(bytes_of(cache.read(b"a").unwrap()).as_deref(), Some(&b"row"[..]));
    assert_eq!(bytes_of(cache.read_timeout(b"a", SHORT).unwrap()).as_deref(), Some(&b"row"[..]));
    assert_eq!(bytes_of(cache.read(b"b").unwrap()), None);
    assert_eq!(bytes_of(cache.read_timeout(b"b", SHORT).unwrap()), None);
    let begun = |key| match cache.begin_get(key) {
        Ok(BegunGet::Answered(held)) => bytes_of(held),
        other => panic!("{other:?}"),
    };
    assert_eq!(begun(b"a").as_deref(), Some(&b"row"[..]));
    assert_eq!(begun(b"b"), None);
}

#[test]
fn a_get_that_nobody_began_is_no_get() {
    let cache = cache();
    let nobody = GetNumbers { call: 7, shard: 0 };
    assert!(matches!(cache.end_get(nobody, None), Err(Error::Refused(Refused::UNKNOWN_CALL))));
    cache.forget_get(nobody);
    assert_eq!(cache.stats().given_up, 0);
}
