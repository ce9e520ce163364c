//! A small service: users from SQLite, through a cache in memory and on flash. Four threads read and change them, and none is
//! served an older row than was there, with its change answered, before it asked. In the end each row that is served is the
//! database's.
//!
//!     profiles FOLDER      the database and the flash are files there
mod database;

use database::{Database, Failed};
use kilambosetry::{share_one_heap, HybridCache, LoadError, Options, Value};
use std::path::PathBuf;
use std::sync::atomic::{AtomicU64, Ordering::SeqCst};
use std::{env, thread};

const USERS: u32 = 20_000;
const MOST_USED: u32 = 50;
const THREADS: u64 = 4;
const STEPS: u64 = 20_000;

/// The user's row: from the cache, or from the database, and then it is cached for an hour.
fn read(cache: &HybridCache, database: &mut Database, user: u32) -> Result<Value, LoadError<Failed>> {
    cache.get_or_load(&user.to_be_bytes(), 3600, || database.load(user))
}

/// The user's row is changed in the database, and then no older one is found.
fn change(cache: &HybridCache, database: &mut Database, user: u32) -> Result<Vec<u8>, Failed> {
    cache.change(&user.to_be_bytes(), || database.change(user))
}

// How often the user was changed, as the row says.
fn changes_in(row: &[u8]) -> u64 {
    let number = row.split(|byte| *byte == b' ').next().and_then(|word| std::str::from_utf8(word).ok());
    number.and_then(|word| word.parse().ok()).expect("it is the row of a user")
}

fn next(seed: &mut u64) -> u32 {
    *seed = seed.wrapping_mul(6_364_136_223_846_793_005).wrapping_add(1_442_695_040_888_963_407);
    (*seed >> 33) as u32
}

/// A thread's day. `least` has the changes of each user that are answered: no read that begins now may be older.
fn serve(
    cache: &HybridCache,
    database: &mut Database,
    least: &[AtomicU64],
    first: u64,
) -> Result<(), LoadError<Failed>> {
    let mut seed = first;
    for step in 0..STEPS {
        let user = next(&mut seed) % if step % 2 == 0 { MOST_USED } else { USERS };
        let least = &least[user as usize];
        if step % 5 == 0 {
            let row = change(cache, database, user).map_err(LoadError::Load)?;
            least.fetch_max(changes_in(&row), SeqCst);
        } else {
            let before = least.load(SeqCst);
            assert!(changes_in(&read(cache, database, user)?) >= before, "user {user} is served an older row");
        }
    }
    Ok(())
}

fn main() -> Result<(), Box<dyn std::error::Error>> {
    share_one_heap(); // (so that what is resident is what the options print)
    let folder = env::args_os().nth(1).map_or_else(|| PathBuf::from("."), PathBuf::from);
    let path = folder.join("users.db");
    let mut database = Database::create(&path, USERS)?;
    let options = Options { memory: 1_000_000, flash: 50_000_000, mean_key: 4, mean_value: 24, ..Options::default() };
    let cache = HybridCache::open(folder.join("flash"), &options)?;
    let least: Vec<AtomicU64> = (0..USERS).map(|_| AtomicU64::new(0)).collect();
    thread::scope(|scope| {
        let serve = |first: u64| {
            let (cache, least, path) = (&cache, &least, &path);
            scope.spawn(move || serve(cache, &mut Database::open(path).map_err(LoadError::Load)?, least, first))
        };
        let threads: Vec<_> = (1..=THREADS).map(serve).collect();
        threads.into_iter().try_for_each(|thread| thread.join().expect("no thread panics"))
    })?;
    let mut changes = 0;
    for user in 0..USERS {
        let row = read(&cache, &mut database, user)?;
        assert_eq!(row[..], database.load(user)?);
        changes += changes_in(&row);
    }
    assert_eq!(changes, THREADS * STEPS / 5);
    let stats = cache.close().stats;
    assert!(stats.hits_from_memory > 0 && stats.hits_from_flash > 0, "{stats}");
    println!("{stats}");
    println!("{USERS} rows are served as the database has them, after {changes} changes");
    Ok(())
}
