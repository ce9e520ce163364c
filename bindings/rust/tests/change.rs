//! Whatever comes of a commit, no row is found from then on that is older than it: its answer is lost, it takes effect later, it
//! panics, its task is dropped, its delete is refused.
use kilambosetry::{Error, HybridCache, Kept, Lease, LeaseAsync, Lookup, Options};
use std::future::{self, Future};
use std::io;
use std::panic::{self, AssertUnwindSafe};
use std::pin::{pin, Pin};
use std::sync::atomic::{AtomicU64, AtomicUsize, Ordering::SeqCst};
use std::sync::Arc;
use std::task::{Context, Poll, Wake, Waker};
use std::thread;
use std::time::{Duration, Instant};

// A database of one row.
#[derive(Default)]
struct Database(AtomicU64);

impl Database {
    fn load(&self) -> io::Result<Vec<u8>> {
        Ok(self.0.load(SeqCst).to_be_bytes().to_vec())
    }

    fn commit(&self, row: u64) -> io::Result<()> {
        self.0.store(row, SeqCst);
        Ok(())
    }

    // It commits, and the connection breaks before the answer.
    fn commit_unanswered(&self, row: u64) -> io::Result<()> {
        self.commit(row)?;
        Err(io::ErrorKind::ConnectionReset.into())
    }
}

const KEY: &[u8] = b"user:7";
const UNKNOWN: Duration = Duration::from_millis(400);

fn read(cache: &HybridCache, database: &Database) -> u64 {
    let row = cache.get_or_load(KEY, 3600, || database.load()).unwrap();
    u64::from_be_bytes(row[..].try_into().unwrap())
}

fn new() -> (HybridCache, Database) {
    let options = Options { unknown_for: UNKNOWN, ..Options::default() };
    let (cache, database) = (HybridCache::in_memory(&options).unwrap(), Database::default());
    assert_eq!(read(&cache, &database), 0);
    (cache, database)
}

fn lease(cache: &HybridCache) -> Lease {
    match cache.get_or_lease(KEY).unwrap() {
        Lookup::Miss(lease) => lease,
        other => panic!("no miss: {other:?}"),
    }
}

fn is_kept(cache: &HybridCache) -> bool {
    cache.get(KEY).unwrap().is_some()
}

#[test]
fn a_commit_that_is_answered_is_found() {
    let (cache, database) = new();
    assert_eq!(cache.change(KEY, || database.commit(1).map(|()| 7)).unwrap(), 7);
    assert_eq!(read(&cache, &database), 1);
    assert!(is_kept(&cache));
    // a load of before, of meanwhile, and of behind
    cache.delete(KEY).unwrap();
    let before = lease(&cache);
    let change = cache.begin_change(KEY);
    assert_eq!(before.store(b"before", 0), Ok(Kept::Stale));
    let meanwhile = lease(&cache);
    let at_once = lease_beside(&cache, &meanwhile);
    assert_eq!(at_once.store(b"meanwhile", 0), Ok(Kept::Stale));
    change.end();
    assert_eq!(meanwhile.store(b"meanwhile", 0), Ok(Kept::Stale));
    assert!(!is_kept(&cache));
    assert_eq!(lease(&cache).store(b"behind", 0), Ok(Kept::Stored));
}

// Another lease, of who waits no more.
fn lease_beside(cache: &HybridCache, _: &Lease) -> Lease {
    cache.delete(KEY).unwrap();
    lease(cache)
}

#[test]
fn a_commit_whose_answer_is_lost_is_found() {
    let (cache, database) = new();
    assert!(cache.change(KEY, || database.commit_unanswered(1)).is_err());
    assert_eq!(read(&cache, &database), 1);
}

#[test]
fn a_commit_that_takes_effect_behind_its_error_is_found() {
    let (cache, database) = new();
    assert!(cache.change(KEY, || Err::<(), _>(io::Error::from(io::ErrorKind::TimedOut))).is_err());
    // what is loaded meanwhile is served, and not kept; nor is it once the bar is over
    assert_eq!(read(&cache, &database), 0);
    let meanwhile = lease(&cache);
    assert!(!is_kept(&cache));
    database.commit(1).unwrap();
    thread::sleep(UNKNOWN);
    assert_eq!(meanwhile.store(&0u64.to_be_bytes(), 0), Ok(Kept::Stale));
    assert!(!is_kept(&cache));
    assert_eq!(read(&cache, &database), 1);
    assert!(is_kept(&cache));
}

#[test]
fn what_another_set_meanwhile_ends_with_the_bar() {
    let (cache, database) = new();
    assert!(cache.change(KEY, || Err::<(), _>(io::Error::from(io::ErrorKind::TimedOut))).is_err());
    let meanwhile = lease(&cache);
    thread::sleep(UNKNOWN);
    // the delete behind the bar is made before the next ticket is handed out
    let behind = match cache.get_or_lease(b"other").unwrap() {
        Lookup::Miss(lease) => lease,
        other => panic!("{other:?}"),
    };
    assert_eq!(behind.store(b"other", 0), Ok(Kept::Stored));
    cache.delete(KEY).unwrap();
    assert_eq!(read(&cache, &database), 0);
    assert_eq!(meanwhile.store(b"old", 0), Ok(Kept::Stale));
    assert!(is_kept(&cache));
}

#[test]
fn a_commit_that_panics_is_found() {
    let (cache, database) = new();
    let commit = || -> io::Result<()> {
        database.commit(1)?;
        panic::resume_unwind(Box::new("it panics"))
    };
    assert!(panic::catch_unwind(AssertUnwindSafe(|| cache.change(KEY, commit))).is_err());
    assert_eq!(read(&cache, &database), 1);
    assert!(!is_kept(&cache)); // it isn't known whether that is all
}

struct Nothing;

impl Wake for Nothing {
    fn wake(self: Arc<Self>) {}
}

#[test]
fn the_commit_of_a_task_that_is_dropped_is_found() {
    let (cache, database) = new();
    {
        let mut task = pin!(async {
            let change = cache.begin_change(KEY);
            database.commit(1).unwrap();
            future::pending::<()>().await; // the answer
            change.end();
        });
        let waker = Waker::from(Arc::new(Nothing));
        assert!(task.as_mut().poll(&mut Context::from_waker(&waker)).is_pending());
        assert!(is_kept(&cache)); // (nothing is promised as long as it is under way)
    }
    assert_eq!(read(&cache, &database), 1);
}

#[test]
fn changes_of_one_key_stand_together() {
    let (cache, _) = new();
    let (one, two) = (cache.begin_change(KEY), cache.begin_change(KEY));
    one.end();
    assert_eq!(lease(&cache).store(b"row", 0), Ok(Kept::Stale));
    drop(two);
    assert_eq!(lease(&cache).store(b"row", 0), Ok(Kept::Stale));
    // a later one that is answered doesn't end the doubt about the earlier
    cache.change(KEY, || Ok::<_, Error>(())).unwrap();
    assert_eq!(lease(&cache).store(b"row", 0), Ok(Kept::Stale));
    thread::sleep(UNKNOWN);
    assert_eq!(lease(&cache).store(b"row", 0), Ok(Kept::Stored));
}

// A task that waits for another's load, and is polled again when the test wants it.
fn waits<'a>(cache: &'a HybridCache) -> Option<Pin<Box<LeaseAsync<'a>>>> {
    let mut task = Box::pin(cache.get_or_lease_async(KEY));
    poll(&mut task).is_pending().then_some(task)
}

fn poll(task: &mut Pin<Box<LeaseAsync<'_>>>) -> Poll<Result<Lookup, Error>> {
    task.as_mut().poll(&mut Context::from_waker(&Waker::from(Arc::new(Nothing))))
}

fn fail(cache: &HybridCache) {
    assert!(cache.change(KEY, || Err::<(), _>("the answer is lost")).is_err());
}

#[test]
fn what_was_loaded_before_a_late_commit_is_handed_to_nobody_who_asks_behind_it_where_another_is_in_doubt() {
    let (cache, _) = new();
    let began = Instant::now();
    fail(&cache);
    thread::sleep(UNKNOWN / 2);
    fail(&cache); // another, whose bar stands longer
    let old = lease(&cache);
    thread::sleep((began + UNKNOWN * 5 / 4).saturating_duration_since(Instant::now()));
    // the first is committed, and its time is over
    let mut asks = waits(&cache).expect("nobody has waited longer than `patience`");
    assert_eq!(old.store(b"old", 0), Ok(Kept::Stale));
    assert!(matches!(poll(&mut asks), Poll::Ready(Ok(Lookup::Miss(_)))));
    thread::sleep(UNKNOWN * 5 / 4); // (that of the second, also where this thread slept longer before it)
    assert_eq!(lease(&cache).store(b"row", 0), Ok(Kept::Stored));
}

#[test]
fn what_was_loaded_before_a_late_commit_is_handed_to_nobody_who_asks_behind_it_where_its_load_was_taken_over() {
    let options = Options { unknown_for: UNKNOWN, patience: 3 * UNKNOWN, ..Options::default() };
    let cache = HybridCache::in_memory(&options).unwrap();
    // (again, where this thread sleeps longer than it is to)
    let is_tried = |_: &i32| {
        fail(&cache);
        let old = lease(&cache);
        thread::sleep(UNKNOWN);
        // it is committed, and its time is over
        let Some(mut asks) = waits(&cache) else { return false };
        thread::sleep(3 * UNKNOWN);
        let next = lease(&cache); // another loads, since that one takes too long
        assert_eq!(old.store(b"old", 0), Ok(Kept::Stale));
        assert!(!matches!(poll(&mut asks), Poll::Ready(Ok(Lookup::Hit(_)))));
        assert_eq!(next.store(b"new", 0), Ok(Kept::Stored));
        true
    };
    assert!((0..20).any(|turn| is_tried(&turn)));
}

#[test]
fn doubts_about_many_changes_of_one_key_are_few() {
    let options = Options { unknown_for: Duration::from_secs(3600), shards: 1, ..Options::default() };
    let cache = HybridCache::in_memory(&options).unwrap();
    let begin = Instant::now();
    (0..200_000).for_each(|_| fail(&cache));
    // (each costs the same, whatever stands before it)
    assert!(begin.elapsed() < Duration::from_secs(60), "{:?}", begin.elapsed());
    assert_eq!(lease(&cache).store(b"row", 0), Ok(Kept::Stale));
}

#[test]
fn a_key_that_the_cache_can_not_have_is_changed_all_the_same() {
    let (cache, _) = new();
    assert_eq!(cache.change(&[7; 256], || Ok::<_, Error>(1)), Ok(1));
    assert_eq!(cache.change(b"", || Err::<(), _>(2)), Err(2));
    let change = cache.begin_change(KEY);
    assert_eq!(format!("{change:?}"), "Change(\"user:7\")");
    let _ = cache.clone().close();
    change.end();
    assert_eq!(cache.change(KEY, || Ok::<_, Error>(3)), Ok(3));
}

#[test]
fn bars_that_are_over_are_forgotten() {
    let options = Options { unknown_for: Duration::ZERO, shards: 1, ..Options::default() };
    let cache = HybridCache::in_memory(&options).unwrap();
    let begin = Instant::now();
    for number in 0..200_000u32 {
        drop(cache.begin_change(&number.to_be_bytes()));
    }
    // (each costs the same, since those that are over are looked through as seldom as there are many)
    assert!(begin.elapsed() < Duration::from_secs(60), "{:?}", begin.elapsed());
    // each was deleted as it was over, and all but the last few again
    assert!(cache.stats().deletes > 399_000, "{}", cache.stats());
}

// Eight threads read and change rows, and now and then an answer is lost, or the commit comes late.
#[test]
fn no_read_is_older_than_a_change_that_was_answered_whatever_came_of_others() {
    const ROWS: usize = 2000;
    const UNKNOWN: Duration = Duration::from_millis(2); // (so that most rows have no bar at most times)
    let options = Options { unknown_for: UNKNOWN, ..Options::default() };
    let cache = HybridCache::in_memory(&options).unwrap();
    let rows: Vec<AtomicU64> = (0..ROWS).map(|_| AtomicU64::new(0)).collect();
    let known: Vec<AtomicU64> = (0..ROWS).map(|_| AtomicU64::new(0)).collect();
    let stale = AtomicUsize::new(0);
    let serve = |thread: u64| {
        let mut seed = thread + 1;
        for turn in 0..20_000u64 {
            seed = seed.wrapping_mul(6_364_136_223_846_793_005).wrapping_add(1_442_695_040_888_963_407);
            let at = (seed >> 33) as usize % ROWS;
            let key = at.to_be_bytes();
            let commit = || match turn % 40 {
                0 => panic::resume_unwind(Box::new(rows[at].fetch_add(1, SeqCst))),
                20 => Err(rows[at].fetch_add(1, SeqCst)),
                _ => Ok(rows[at].fetch_add(1, SeqCst) + 1),
            };
            if turn % 10 == 0 {
                if let Ok(Ok(row)) = panic::catch_unwind(AssertUnwindSafe(|| cache.change(&key, commit))) {
                    known[at].fetch_max(row, SeqCst);
                }
                continue;
            }
            let least = known[at].load(SeqCst);
            let row = cache.get_or_load(&key, 0, || Ok::<_, Error>(rows[at].load(SeqCst).to_be_bytes())).unwrap();
            stale.fetch_add(usize::from(u64::from_be_bytes(row[..].try_into().unwrap()) < least), SeqCst);
        }
    };
    let serve = &serve;
    thread::scope(|scope| (0..8).for_each(|thread| drop(scope.spawn(move || serve(thread)))));
    assert_eq!(stale.into_inner(), 0);
    assert!(cache.stats().stored > 1000, "{}", cache.stats());
    // once all bars are over each row is kept again
    thread::sleep(UNKNOWN);
    for (at, row) in rows.iter().enumerate() {
        let row = row.load(SeqCst).to_be_bytes();
        assert_eq!(cache.get_or_load(&at.to_be_bytes(), 0, || Ok::<_, Error>(row)).unwrap()[..], row);
        assert_eq!(cache.get(&at.to_be_bytes()).unwrap().as_deref(), Some(&row[..]));
    }
}
