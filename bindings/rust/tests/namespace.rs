//! Namespaces: all of one is forgotten at once, and nothing of it is found again, whatever was under way, was pushed out or was kept.
use kilambosetry::{
    Began, HybridCache, Keep, Kept, LoadError, Loaded, Lookup, Namespace, Options, Pool, Refused, WhyEmpty,
};
use std::convert::Infallible;
use std::fs;
use std::future::Future;
use std::io;
use std::path::PathBuf;
use std::pin::pin;
use std::sync::atomic::{AtomicBool, AtomicU64, Ordering::SeqCst};
use std::sync::mpsc;
use std::task::{Context, Poll, Waker};
use std::thread;
use std::time::Duration;

fn cache() -> HybridCache {
    HybridCache::in_memory(&Options { patience: Duration::from_secs(60), ..Options::default() }).unwrap()
}

fn get(of: &Namespace, key: &[u8]) -> Option<Vec<u8>> {
    of.get(key).unwrap().map(Into::into)
}

fn row(text: &str) -> Result<&str, Infallible> {
    Ok(text)
}

#[test]
fn each_has_its_own_keys_and_is_cleared_alone() {
    let cache = cache();
    let (one, other) = (cache.namespace("ab").unwrap(), cache.namespace("a").unwrap());
    assert!(get(&one, b"key").is_none() && cache.stats().stored == 0); // nothing is kept for one that isn't used
    one.set(b"key", b"one", 0).unwrap();
    other.set(b"key", b"other", 0).unwrap();
    other.set(b"bkey", b"third", 0).unwrap();
    cache.set(b"key", b"plain", 0).unwrap();
    let found = [get(&one, b"key"), get(&other, b"key"), get(&other, b"bkey")];
    assert_eq!(found.map(|found| found.unwrap()), [&b"one"[..], b"other", b"third"]);
    let again = cache.namespace(b"ab").unwrap();
    again.clear();
    assert!(get(&one, b"key").is_none() && get(&again, b"key").is_none());
    assert!(get(&other, b"key").is_some() && cache.get(b"key").unwrap().is_some());
    one.set(b"key", b"new", 0).unwrap();
    assert_eq!(get(&again, b"key").unwrap(), b"new");
    assert!(one.delete(b"key").unwrap() && get(&one, b"key").is_none());
    other.invalidate(b"key");
    assert!(get(&other, b"key").is_none() && get(&other, b"bkey").is_some());
    cache.clear();
    assert!(get(&other, b"bkey").is_none());
    assert_eq!(format!("{one:?}"), "Namespace(\"ab\")");
}

#[test]
fn names_keys_and_values_have_their_limits() {
    let cache = cache();
    assert_eq!(cache.namespace("").unwrap_err(), Refused::KEY_EMPTY);
    assert_eq!(cache.namespace([7; 128]).unwrap_err(), Refused::KEY_TOO_LONG);
    let longest = cache.namespace([7; 127]).unwrap();
    longest.set(&[1; 127], b"row", 0).unwrap();
    assert_eq!(get(&longest, &[1; 127]).unwrap(), b"row");
    let refused = Err(kilambosetry::Error::Refused(Refused::KEY_TOO_LONG));
    assert_eq!(longest.set(&[1; 128], b"row", 0), refused);
    let long = vec![1; 1_048_576 - 16];
    longest.set(b"", &long, 0).unwrap();
    assert_eq!(get(&longest, b"").unwrap(), long);
    assert!(longest.set(b"key", &[1; 1_048_576 - 15], 0).is_err());
    // a load is made all the same, and what it answers is served
    assert_eq!(&longest.get_or_load(&[1; 200], 0, || row("row")).unwrap()[..], b"row");
    assert_eq!(longest.change(&[1; 200], || Ok::<_, io::Error>(7)).unwrap(), 7);
}

#[test]
fn times_to_live_are_those_of_the_cache() {
    let second = std::sync::Arc::new(AtomicU64::new(1_000));
    let hand = second.clone();
    let clock = kilambosetry::Clock::new(move || hand.load(SeqCst));
    let cache = HybridCache::in_memory(&Options { clock, ..Options::default() }).unwrap();
    let of = cache.namespace("of").unwrap();
    of.set(b"short", b"row", 10).unwrap();
    of.get_or_load(b"loaded", 10, || row("row")).unwrap();
    of.set(b"long", b"row", 0).unwrap();
    second.store(1_009, SeqCst);
    assert!(get(&of, b"short").is_some() && get(&of, b"loaded").is_some());
    second.store(1_010, SeqCst);
    assert!(get(&of, b"short").is_none() && get(&of, b"loaded").is_none() && get(&of, b"long").is_some());
}

#[test]
fn that_there_is_none_is_forgotten_too() {
    let cache = cache();
    let of = cache.namespace("of").unwrap();
    let asked = AtomicU64::new(0);
    let find = || {
        of.find_or_load(b"key", || {
            asked.fetch_add(1, SeqCst);
            Ok::<_, Infallible>(Loaded::absent(60))
        })
    };
    assert!(find().unwrap().is_none() && find().unwrap().is_none());
    assert!(get(&of, b"key").is_none() && asked.load(SeqCst) == 1);
    assert!(matches!(of.get_or_lease(b"key"), Ok(Lookup::Absent)));
    of.clear();
    assert!(find().unwrap().is_none() && asked.load(SeqCst) == 2);
    // who doesn't want to know that there is none loads it
    assert_eq!(&of.get_or_load(b"key", 60, || row("row")).unwrap()[..], b"row");
    assert_eq!(get(&of, b"key").unwrap(), b"row");
}

#[test]
fn what_was_loaded_before_a_clear_is_not_found_behind_it() {
    let cache = cache();
    let of = cache.namespace("of").unwrap();
    let Lookup::Miss(lease) = of.get_or_lease(b"key").unwrap() else { panic!("it is empty") };
    of.clear();
    let _ = lease.store(b"old", 0).unwrap(); // (it may be stored, and is of the generation before)
    assert!(get(&of, b"key").is_none());
    assert_eq!(&of.get_or_load(b"key", 0, || row("new")).unwrap()[..], b"new");
    assert_eq!(get(&of, b"key").unwrap(), b"new");
    // and what is stored is taken away by who loads anew
    of.clear();
    assert_eq!(&of.get_or_load(b"key", 0, || row("third")).unwrap()[..], b"third");
    assert_eq!(get(&of, b"key").unwrap(), b"third");
}

// A load is under way as it is cleared: who waited is handed what it came to, and who asks then isn't.
#[test]
fn what_was_loaded_before_a_clear_is_not_handed_on_behind_it() {
    for is_kept in [true, false] {
        let cache = cache();
        let of = cache.namespace("of").unwrap();
        let Lookup::Miss(lease) = of.get_or_lease(b"key").unwrap() else { panic!("it is empty") };
        of.clear();
        thread::scope(|all| {
            let waits = all.spawn(|| of.get_or_load(b"key", 0, || row("new")).unwrap());
            while cache.stats().waits_for_loads == 0 {
                thread::yield_now();
            }
            if !is_kept {
                // (a delete as it is stored: then it is handed on, and not stored)
                cache.delete(b"\x02ofkey").unwrap();
            }
            let _ = lease.store(b"old", 0).unwrap();
            assert_eq!(&waits.join().unwrap()[..], b"new");
        });
        assert_eq!(get(&of, b"key").unwrap(), b"new");
    }
}

#[test]
fn one_loads_and_the_others_wait() {
    let cache = cache();
    let of = cache.namespace("of").unwrap();
    let (loading, begun) = mpsc::channel();
    let (go_on, goes_on) = mpsc::channel::<()>();
    thread::scope(|all| {
        let first = all.spawn(|| {
            of.get_or_load(b"key", 0, move || {
                loading.send(()).unwrap();
                goes_on.recv().unwrap();
                row("row")
            })
        });
        begun.recv().unwrap();
        let others: Vec<_> = (0..4).map(|_| all.spawn(|| of.get_or_load(b"key", 0, || row("another")))).collect();
        while cache.stats().waits_for_loads < 4 {
            thread::yield_now();
        }
        go_on.send(()).unwrap();
        assert_eq!(&first.join().unwrap().unwrap()[..], b"row");
        others.into_iter().for_each(|other| assert_eq!(&other.join().unwrap().unwrap()[..], b"row"));
    });
    let failed = of.get_or_load(b"other", 0, || Err::<&str, _>("the database is down"));
    assert_eq!(failed, Err(LoadError::Load("the database is down")));
}

fn is_sent<T: Send>(of: T) -> T {
    of
}

#[test]
fn tasks_load_and_may_be_sent() {
    let cache = cache();
    let of = cache.namespace("of").unwrap();
    let asked = AtomicU64::new(0);
    let find = || {
        let load = || std::future::ready(Ok::<_, Infallible>(Loaded::row(asked.fetch_add(1, SeqCst).to_string(), 0)));
        let task = is_sent(of.find_or_load_async(b"key", load));
        let Poll::Ready(found) = pin!(task).poll(&mut Context::from_waker(Waker::noop())) else { panic!("it waits") };
        found.unwrap().unwrap().into_vec()
    };
    assert_eq!((find(), find()), (b"0".to_vec(), b"0".to_vec()));
    of.clear();
    assert_eq!(find(), b"1");
    of.set(b"key", b"2", 0).unwrap();
    assert_eq!(find(), b"2");
}

#[test]
fn changes_bar_their_keys_whatever_is_cleared() {
    let options = Options { unknown_for: Duration::from_millis(400), ..Options::default() };
    let cache = HybridCache::in_memory(&options).unwrap();
    let of = cache.namespace("of").unwrap();
    let load = || {
        let Lookup::Miss(lease) = of.get_or_lease(b"key").unwrap() else { panic!("it is empty") };
        lease.store(b"old", 0).unwrap()
    };
    assert_eq!(load(), Kept::Stored);
    of.clear();
    let change = of.begin_change(b"key");
    of.clear();
    assert_eq!(load(), Kept::Stale);
    change.end();
    assert_eq!(load(), Kept::Stored);
    // a commit whose answer was lost
    of.change(b"key", || Err::<(), _>("lost")).unwrap_err();
    of.clear();
    assert_eq!(load(), Kept::Stale);
    let Lookup::Miss(lease) = of.get_or_lease(b"key").unwrap() else { panic!("it is empty") };
    thread::sleep(Duration::from_millis(500));
    assert_eq!(lease.store(b"old", 0), Ok(Kept::Stale)); // (it was loaded before the commit can't come any more)
    assert_eq!(load(), Kept::Stored);
}

// A pool so small that others push the generation out, again and again.
#[test]
fn where_its_generation_is_pushed_out_all_of_it_is_forgotten() {
    let pool = Some(Pool { bytes: 100_000, items: 50 });
    let cache = HybridCache::in_memory(&Options { pool, shards: 1, ..Options::default() }).unwrap();
    let of = cache.namespace("of").unwrap();
    of.set(b"key", b"old", 0).unwrap();
    for number in 0..200_u32 {
        cache.set(&number.to_be_bytes(), b"row", 0).unwrap();
        cache.get(b"\x02ofkey").unwrap(); // (the row stays, and its generation goes)
    }
    assert!(cache.get(b"\x02ofkey").unwrap().is_some() && cache.get(b"\x00\x02of").unwrap().is_none());
    assert!(get(&of, b"key").is_none());
    of.set(b"other", b"row", 0).unwrap();
    assert!(get(&of, b"key").is_none() && get(&of, b"other").is_some());
    assert_eq!(&of.get_or_load(b"key", 0, || row("new")).unwrap()[..], b"new");
    // what somebody else has set there is no generation
    cache.set(b"\x00\x02of", b"what is this", 0).unwrap();
    assert!(get(&of, b"key").is_none());
    of.set(b"key", b"lost", 0).unwrap();
    of.set(b"key", b"found", 0).unwrap();
    assert_eq!(get(&of, b"key").unwrap(), b"found");
}

// Its key is barred, so that nothing which was drawn is stored.
#[test]
fn where_no_generation_can_be_stored_loads_go_on() {
    let cache = cache();
    let of = cache.namespace("of").unwrap();
    of.set(b"key", b"old", 0).unwrap();
    let change = cache.begin_change(b"\x00\x02of");
    of.clear();
    for _ in 0..3 {
        assert_eq!(&of.get_or_load(b"key", 0, || row("new")).unwrap()[..], b"new");
        assert!(get(&of, b"key").is_none());
        of.set(b"key", b"lost", 0).unwrap();
    }
    change.end();
    assert_eq!(&of.get_or_load(b"key", 0, || row("new")).unwrap()[..], b"new");
    assert_eq!(get(&of, b"key").unwrap(), b"new");
}

struct Place(PathBuf);

impl Place {
    fn new(name: &str) -> Place {
        let folder = std::env::temp_dir().join(format!("namespace-{name}-{}", std::process::id()));
        let _ = fs::remove_dir_all(&folder);
        fs::create_dir(&folder).unwrap();
        Place(folder)
    }

    fn open(&self) -> HybridCache {
        let keep = Some(Keep::at(self.0.join("kept")));
        let options =
            Options { memory: 300_000, flash: 4_000_000, mean_value: 400, shards: 3, keep, ..Options::default() };
        HybridCache::open(self.0.join("flash"), &options).unwrap()
    }
}

impl Drop for Place {
    fn drop(&mut self) {
        let _ = fs::remove_dir_all(&self.0);
    }
}

const MANY: u32 = 2_000;

fn fill(cache: &HybridCache, of: &Namespace) {
    for number in 0..MANY {
        of.set(&number.to_be_bytes(), &[number as u8; 400], 0).unwrap();
        if number.is_multiple_of(8) {
            cache.flush().unwrap();
        }
    }
}

fn count(cache: &HybridCache, of: &Namespace) -> usize {
    let found = |number: &u32| {
        let found = get(of, &number.to_be_bytes());
        assert!(found.as_ref().is_none_or(|found| found[..] == [*number as u8; 400]));
        cache.flush().unwrap();
        found.is_some()
    };
    (0..MANY).filter(found).count()
}

#[test]
fn over_a_restart_it_has_what_it_had_and_nothing_that_was_cleared() {
    let place = Place::new("restart");
    let cache = place.open();
    let (one, other) = (cache.namespace("one").unwrap(), cache.namespace("other").unwrap());
    fill(&cache, &other);
    let had = count(&cache, &other);
    assert!(had > MANY as usize / 2 && cache.stats().hits_from_flash > 0, "{had}");
    one.set(b"key", b"old", 0).unwrap();
    one.clear();
    drop((one, other));
    println!("{}", cache.close());
    let cache = place.open();
    assert!(matches!(cache.kept(), Began::Kept(_)), "{}", cache.kept());
    let (one, other) = (cache.namespace("one").unwrap(), cache.namespace("other").unwrap());
    assert!(get(&one, b"key").is_none());
    assert_eq!(count(&cache, &other), had);
    other.clear();
    assert_eq!(count(&cache, &other), 0);
    other.set(&7_u32.to_be_bytes(), &[7; 400], 0).unwrap();
    drop((one, other));
    cache.close();
    let cache = place.open();
    let other = cache.namespace("other").unwrap();
    assert_eq!(count(&cache, &other), 1);
    cache.close();
    other.clear(); // (what is cleared behind the close takes what was kept away)
    drop(other);
    let cache = place.open();
    assert!(matches!(cache.kept(), Began::Empty(WhyEmpty::NoSeal | WhyEmpty::NoFile)), "{}", cache.kept());
}

// Threads load rows of a database that is changed as a whole, with a clear behind each of its changes.
#[test]
fn no_read_is_older_than_a_clear_that_was_over() {
    let pool = Some(Pool { bytes: 100_000, items: 60 });
    let cache = HybridCache::in_memory(&Options { pool, shards: 1, ..Options::default() }).unwrap();
    let of = cache.namespace("of").unwrap();
    let (database, cleared, is_over) = (AtomicU64::new(1), AtomicU64::new(0), AtomicBool::new(false));
    thread::scope(|all| {
        for thread in 0..4_u64 {
            let (of, database, cleared, is_over) = (&of, &database, &cleared, &is_over);
            all.spawn(move || {
                let mut seed = thread + 1;
                while !is_over.load(SeqCst) {
                    seed = seed.wrapping_mul(6_364_136_223_846_793_005).wrapping_add(1_442_695_040_888_963_407);
                    let key = (seed >> 58).to_be_bytes();
                    let least = cleared.load(SeqCst);
                    let load = || Ok::<_, Infallible>(database.load(SeqCst).to_be_bytes());
                    let row = match seed >> 40 & 1 {
                        0 => Some(of.get_or_load(&key, 0, load).unwrap().into()),
                        _ => get(of, &key),
                    };
                    let found = row.map(|row: Vec<u8>| u64::from_be_bytes(row[..].try_into().unwrap()));
                    assert!(found.is_none_or(|found| found >= least), "{found:?} and not {least}");
                }
            });
        }
        for version in 2..2_000 {
            database.store(version, SeqCst);
            of.clear();
            cleared.store(version, SeqCst);
            if version % 16 == 0 {
                thread::sleep(Duration::from_millis(1));
            }
        }
        is_over.store(true, SeqCst);
    });
    assert!(cache.stats().hits_from_memory > 0);
}
