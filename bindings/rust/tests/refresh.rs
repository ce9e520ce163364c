//! Rows that are loaded anew while the one that is there is answered: one caller loads, a row is told to be stale, and none is answered
//! that was deleted, changed or cleared, or is being changed.
use kilambosetry::{Aged, Clock, HybridCache, Kept, LoadError, Loaded, Namespace, Options, Refresh, Served};
use std::convert::Infallible;
use std::sync::atomic::{AtomicBool, AtomicU64, Ordering::SeqCst};
use std::sync::{Arc, Barrier};
use std::thread;
use std::time::{Duration, Instant};

struct Fixture {
    cache: HybridCache,
    of: Namespace,
    second: Arc<AtomicU64>,
}

const REFRESH: Refresh = Refresh { ahead: 5, stale_for: 30 };

// A row that is stored at second 1,000, and has 60 seconds.
fn fixture() -> Fixture {
    let second = Arc::new(AtomicU64::new(1_000));
    let hand = Arc::clone(&second);
    let clock = Clock::new(move || hand.load(SeqCst));
    let unknown_for = Duration::from_millis(300);
    let patience = Duration::from_secs(60);
    let cache = HybridCache::in_memory(&Options { clock, unknown_for, patience, ..Options::default() }).unwrap();
    let of = cache.namespace("of").unwrap();
    let it = Fixture { cache, of, second };
    assert_eq!(it.find(Some("old")), served("old", false));
    it
}

fn served(row: &str, is_stale: bool) -> Option<(Vec<u8>, bool)> {
    Some((row.as_bytes().to_vec(), is_stale))
}

impl Fixture {
    fn at(&self, second: u64) {
        self.second.store(1_000 + second, SeqCst);
    }

    fn get(&self) -> Aged {
        self.of.get_or_refresh(b"key", &REFRESH).unwrap()
    }

    // What is served where the database has this row, or is down.
    fn find(&self, row: Option<&str>) -> Option<(Vec<u8>, bool)> {
        let load = || row.map(|row| Loaded::row(row, 60)).ok_or("it is down");
        match self.of.find_or_refresh(b"key", &REFRESH, load) {
            Ok(Served { row: Some(row), is_stale, .. }) => Some((row.into(), is_stale)),
            Ok(Served { row: None, .. }) => panic!("there is a row"),
            Err(error) => {
                assert_eq!(error, LoadError::Load("it is down"));
                None
            }
        }
    }
}

#[test]
fn a_row_is_fresh_due_stale_and_gone() {
    let it = fixture();
    it.at(54);
    assert!(matches!(it.get(), Aged::Fresh(row) if row[..] == *b"old"));
    it.at(55);
    let Aged::Due(row, lease) = it.get() else { panic!("it is to be loaded anew") };
    assert!(row[..] == *b"old" && matches!(it.get(), Aged::Fresh(_))); // another loads it
    it.at(60);
    assert!(matches!(it.get(), Aged::Stale(row, None) if row[..] == *b"old"));
    lease.fail("it is down");
    let Aged::Stale(_, Some(lease)) = it.get() else { panic!("nobody loads it") };
    it.at(89);
    assert!(matches!(it.get(), Aged::Stale(_, None)));
    assert_eq!(lease.store(b"new", 60), Ok(Kept::Stored));
    assert!(matches!(it.get(), Aged::Fresh(row) if row[..] == *b"new"));
    it.at(89 + 90);
    assert!(matches!(it.get(), Aged::Miss(_)));
}

#[test]
fn nobody_else_is_answered_a_stale_row() {
    let it = fixture();
    let plain = Refresh::default();
    it.at(55);
    assert!(matches!(it.of.get_or_refresh(b"key", &plain).unwrap(), Aged::Fresh(_)));
    it.at(60);
    assert!(it.of.get(b"key").unwrap().is_none());
    let short = Refresh { stale_for: 3, ..REFRESH };
    it.at(62);
    let Aged::Stale(_, Some(lease)) = it.of.get_or_refresh(b"key", &short).unwrap() else { panic!("it is stale") };
    drop(lease);
    it.at(63);
    // who asks so loads it, and the row of before goes
    assert!(matches!(it.of.get_or_refresh(b"key", &short).unwrap(), Aged::Miss(_)));
    assert!(matches!(it.get(), Aged::Miss(_)));
}

#[test]
fn what_is_stored_otherwise_is_kept_for_its_time_to_live() {
    let it = fixture();
    it.of.set(b"key", b"set", 60).unwrap();
    it.at(59);
    assert!(matches!(it.get(), Aged::Due(..)));
    it.at(60);
    assert!(matches!(it.get(), Aged::Miss(_)));
    // nor has what is kept for good
    it.of.find_or_refresh(b"good", &REFRESH, || Ok::<_, Infallible>(Loaded::row("row", 0))).unwrap();
    it.at(1_000_000);
    assert!(matches!(it.of.get_or_refresh(b"good", &REFRESH), Ok(Aged::Fresh(_))));
}

#[test]
fn the_database_may_be_down() {
    let it = fixture();
    it.at(58);
    assert_eq!(it.find(None), served("old", false));
    it.at(70);
    assert_eq!(it.find(None), served("old", true));
    assert_eq!(it.find(Some("new")), served("new", false));
    assert_eq!(it.find(None), served("new", false));
    it.at(70 + 90);
    assert_eq!(it.find(None), None);
}

#[test]
fn that_there_is_none_is_never_stale() {
    let it = fixture();
    let find = |row: Loaded| it.of.find_or_refresh(b"none", &REFRESH, || Ok::<_, Infallible>(row)).unwrap();
    assert_eq!(find(Loaded::absent(10)).row, None);
    it.at(9);
    assert_eq!(find(Loaded::row("new", 60)).row, None);
    assert!(matches!(it.of.get_or_refresh(b"none", &REFRESH), Ok(Aged::Absent)));
    it.at(10);
    assert_eq!(find(Loaded::row("new", 60)).row.as_deref(), Some(&b"new"[..]));
}

#[test]
fn what_is_taken_away_is_not_answered() {
    let ways: [fn(&Fixture); 6] = [
        |it| _ = it.of.delete(b"key").unwrap(),
        |it| it.of.invalidate(b"key"),
        |it| it.of.change(b"key", || Ok::<_, Infallible>(())).unwrap(),
        |it| _ = it.of.change(b"key", || Err::<(), _>(())),
        |it| it.of.clear(),
        |it| it.cache.clear(),
    ];
    for (way, takes_away) in ways.into_iter().enumerate() {
        for second in [56, 70] {
            let it = fixture();
            it.at(second);
            takes_away(&it);
            assert!(matches!(it.get(), Aged::Miss(_)), "{way}");
            assert_eq!(it.find(None), None);
            // while it is loaded anew
            let it = fixture();
            it.at(second);
            let (Aged::Due(_, lease) | Aged::Stale(_, Some(lease))) = it.get() else { panic!("it is due") };
            takes_away(&it);
            let _ = lease.store(b"old", 60).unwrap();
            assert!(matches!(it.get(), Aged::Miss(_)), "{way}");
            // by who is answered as its load fails
            let it = fixture();
            it.at(second);
            let load = || {
                takes_away(&it);
                Err::<Loaded, _>("it is down")
            };
            let failed = it.of.find_or_refresh(b"key", &REFRESH, load);
            assert_eq!(failed, Err(LoadError::Load("it is down")), "{way}");
        }
    }
}

#[test]
fn what_is_being_changed_is_neither_stale_nor_loaded_ahead() {
    let it = fixture();
    it.at(56);
    let change = it.of.begin_change(b"key");
    assert!(matches!(it.get(), Aged::Fresh(_)));
    it.at(60);
    let Aged::Miss(lease) = it.get() else { panic!("it is being changed") };
    assert_eq!(lease.store(b"old", 60), Ok(Kept::Stale));
    change.end();
    let it = fixture();
    it.at(60);
    it.of.change(b"key", || Err::<(), _>("lost")).unwrap_err();
    let Aged::Miss(lease) = it.get() else { panic!("it may have been changed") };
    thread::sleep(Duration::from_millis(400));
    assert_eq!(lease.store(b"old", 60), Ok(Kept::Stale));
    assert_eq!(it.find(Some("new")), served("new", false));
}

#[test]
fn one_loads_and_nobody_waits() {
    let it = fixture();
    it.at(60);
    let (loads, stale) = (AtomicU64::new(0), AtomicU64::new(0));
    let (begins, waits) = (Barrier::new(8), it.cache.stats().waits_for_loads);
    thread::scope(|all| {
        for _ in 0..8 {
            all.spawn(|| {
                begins.wait();
                let load = || {
                    loads.fetch_add(1, SeqCst);
                    while stale.load(SeqCst) < 7 {
                        thread::yield_now(); // (all others are answered meanwhile)
                    }
                    Ok::<_, Infallible>(Loaded::row("new", 60))
                };
                let served = it.of.find_or_refresh(b"key", &REFRESH, load).unwrap();
                stale.fetch_add(u64::from(served.is_stale), SeqCst);
            });
        }
    });
    assert_eq!((loads.load(SeqCst), stale.load(SeqCst)), (1, 7));
    assert_eq!(it.cache.stats().waits_for_loads, waits);
}

// Rows are due and stale all the time, and are changed meanwhile.
#[test]
fn no_row_is_older_than_a_change_that_was_answered() {
    let it = fixture();
    let (rows, known): ([AtomicU64; 8], [AtomicU64; 8]) = Default::default();
    let (old, is_over) = (AtomicU64::new(0), AtomicBool::new(false));
    thread::scope(|all| {
        for thread in 0..4_u64 {
            let (it, rows, known, old, is_over) = (&it, &rows, &known, &old, &is_over);
            all.spawn(move || {
                let mut seed = thread + 1;
                while !is_over.load(SeqCst) {
                    seed = seed.wrapping_mul(6_364_136_223_846_793_005).wrapping_add(1_442_695_040_888_963_407);
                    let of = (seed >> 61) as usize;
                    let least = known[of].load(SeqCst);
                    let load = || {
                        let row = rows[of].load(SeqCst);
                        thread::sleep(Duration::from_micros(100));
                        Ok::<_, Infallible>(Loaded::row(row.to_be_bytes(), 10))
                    };
                    let served = it.of.find_or_refresh(&[of as u8], &REFRESH, load).unwrap();
                    let found = u64::from_be_bytes(served.row.unwrap()[..].try_into().unwrap());
                    old.fetch_add(u64::from(found < least), SeqCst);
                }
            });
        }
        let begun = Instant::now();
        for turn in (1_u64..).take_while(|_| begun.elapsed() < Duration::from_secs(1)) {
            let of = (turn % 8) as usize;
            let commit = || {
                rows[of].store(turn, SeqCst);
                Ok::<_, Infallible>(())
            };
            it.of.change(&[of as u8], commit).unwrap();
            known[of].store(turn, SeqCst);
            it.at(3 * turn);
            thread::sleep(Duration::from_micros(100));
        }
        is_over.store(true, SeqCst);
    });
    assert_eq!(old.load(SeqCst), 0);
}
