//! What holds over many turns: caches that are opened and closed, closes that come amid calls of every kind, devices that fail always,
//! times to live, keys and values of every length, wakers that do anything, threads with little stack.
use kilambosetry::{Clock, Error, FileError, HybridCache, Lookup, OpenError, Options, PageDevice};
use std::collections::HashMap;
use std::fs;
use std::future::Future;
use std::io;
use std::pin::pin;
use std::sync::atomic::{AtomicU64, AtomicU8, Ordering::SeqCst};
use std::sync::{mpsc, Arc, Condvar, Mutex};
use std::task::{Context, Poll, Wake, Waker};
use std::thread::{self, Thread};
use std::time::Duration;

const LONG: Duration = Duration::from_secs(60);

// What the device does besides.
const FAILS_READS: u8 = 1;
const FAILS_WRITES: u8 = 2;
const IS_SLOW: u8 = 4;

/// Pages in memory. Reads wait while the gate is shut.
#[derive(Default)]
struct Ram {
    pages: Mutex<HashMap<u32, Vec<u8>>>,
    manner: AtomicU8,
    is_shut: Mutex<bool>,
    opens: Condvar,
}

impl Ram {
    fn shut(&self, is_shut: bool) {
        *self.is_shut.lock().unwrap() = is_shut;
        self.opens.notify_all();
    }

    // Takes a while, or fails, where it is to.
    fn operate(&self, page: u32, failing: u8) -> io::Result<()> {
        let manner = self.manner.load(SeqCst);
        if manner & IS_SLOW != 0 {
            thread::sleep(Duration::from_micros(u64::from(page) * 37 % 700));
        }
        if manner & failing != 0 {
            return Err(io::Error::other("it fails always"));
        }
        Ok(())
    }
}

struct Handle(Arc<Ram>);

impl PageDevice for Handle {
    fn read(&self, page: u32, out: &mut [u8]) -> io::Result<()> {
        drop(self.0.opens.wait_while(self.0.is_shut.lock().unwrap(), |is_shut| *is_shut).unwrap());
        self.0.operate(page, FAILS_READS)?;
        out.copy_from_slice(self.0.pages.lock().unwrap().get(&page).ok_or(io::ErrorKind::NotFound)?);
        Ok(())
    }

    fn write(&self, page: u32, bytes: &[u8]) -> io::Result<()> {
        self.0.operate(page, FAILS_WRITES)?;
        self.0.pages.lock().unwrap().insert(page, bytes.to_vec());
        Ok(())
    }
}

fn over_ram(options: &Options) -> (HybridCache, Arc<Ram>) {
    let ram = Arc::new(Ram::default());
    (HybridCache::over(Handle(Arc::clone(&ram)), options).unwrap(), ram)
}

fn small() -> Options {
    Options { memory: 300_000, flash: 2_000_000, shards: 1, mean_value: 400, ..Options::default() }
}

struct Unparks(Thread);

impl Wake for Unparks {
    fn wake(self: Arc<Self>) {
        self.0.unpark();
    }
}

fn block_on<T>(future: impl Future<Output = T>) -> T {
    let (mut future, waker) = (pin!(future), Waker::from(Arc::new(Unparks(thread::current()))));
    loop {
        match future.as_mut().poll(&mut Context::from_waker(&waker)) {
            Poll::Ready(answer) => return answer,
            Poll::Pending => thread::park(),
        }
    }
}

// Threads, open files, and kilobytes that are in memory.
fn used() -> (usize, usize, u64) {
    let entries = |folder| fs::read_dir(folder).unwrap().count();
    let said = fs::read_to_string("/proc/self/statm").unwrap();
    let pages = said.split(' ').nth(1).and_then(|pages| pages.parse::<u64>().ok()).unwrap();
    (entries("/proc/self/task"), entries("/proc/self/fd"), pages * 4)
}

// The tests that count what the process uses, one at a time, and no other one with them.
static ALONE: Mutex<()> = Mutex::new(());

#[test]
fn many_caches_leave_nothing() {
    let _alone = ALONE.lock();
    let path = std::env::temp_dir().join(format!("long-many-{}", std::process::id()));
    let options = Options { memory: 100_000, flash: 1_000_000, ..small() };
    let mut first = (0, 0, 0);
    for turn in 0..1000u32 {
        let cache = HybridCache::open(&path, &options).unwrap();
        for number in 0..20u32 {
            cache.set(&number.to_be_bytes(), &[1; 4000], 0).unwrap();
        }
        assert!(matches!(HybridCache::open(&path, &options), Err(OpenError::File { why: FileError::InUse, .. })));
        assert!(HybridCache::open(&path, &Options { memory: 1, ..options.clone() }).is_err());
        let other = cache.clone();
        match turn % 2 {
            0 => drop((cache, other)),
            _ => {
                let _ = other.close();
                assert_eq!(cache.get(b"key"), Err(Error::Closed));
            }
        }
        if turn == 200 {
            first = used();
        }
    }
    let last = used();
    fs::remove_file(path).unwrap();
    assert!(last.0 <= first.0 && last.1 <= first.1 && last.2 < first.2 + 10_000, "{first:?}, then {last:?}");
}

// A call of this kind on one of 200 keys, by chance.
fn call(cache: &HybridCache, kind: u32, chance: u32) -> Result<(), Error> {
    let key = (chance % 200).to_be_bytes();
    match kind {
        0 => cache.get(&key).map(drop),
        1 => cache.get_timeout(&key, LONG).map(drop),
        2 => block_on(cache.get_async(&key)).map(drop),
        3 => block_on(cache.get_or_lease_async(b"loading")).map(drop),
        4 => cache.get_or_lease(b"loading").map(drop),
        5 => cache.add(&key, &[2; 3000], 0).map(drop),
        6 => cache.flush(),
        _ => cache.set(&key, &[3; 2000], 0).and_then(|()| cache.delete(&key)).map(drop),
    }
}

#[test]
fn a_close_amid_calls_of_every_kind_answers_them() {
    let _alone = ALONE.lock();
    let options = Options { shards: 2, writers: 2, fillers: 1, mean_value: 3000, patience: LONG, ..small() };
    for round in 0..60u32 {
        let (cache, ram) = over_ram(&options);
        ram.manner.store(IS_SLOW, SeqCst);
        for number in 0..200u32 {
            cache.set(&number.to_be_bytes(), &[1; 3000], 0).unwrap();
        }
        let Ok(Lookup::Miss(loading)) = cache.get_or_lease(b"loading") else { panic!("it is empty") };
        let (tell, told) = mpsc::channel();
        for kind in 0..8u32 {
            let (cache, tell) = (cache.clone(), tell.clone());
            thread::spawn(move || {
                let mut chance = round + kind;
                let ended = loop {
                    chance = chance.wrapping_mul(1_664_525).wrapping_add(1_013_904_223);
                    if let Err(error) = call(&cache, kind, chance >> 8) {
                        break error;
                    }
                };
                drop(cache);
                tell.send((kind, ended)).unwrap();
            });
        }
        thread::sleep(Duration::from_micros(u64::from(round) * 97 % 9000));
        let other = cache.clone();
        match round % 2 {
            0 => _ = cache.close(),
            _ => drop(thread::spawn(move || _ = cache.close())),
        }
        for _ in 0..8 {
            let (kind, ended) = told.recv_timeout(LONG).expect("each call ends");
            assert_eq!(ended, Error::Closed, "kind {kind}");
        }
        drop((loading, other));
    }
}

// The hundredths of a second that the process has computed.
fn computed() -> u64 {
    let said = fs::read_to_string("/proc/self/stat").unwrap();
    let words: Vec<&str> = said.rsplit(") ").next().unwrap().split(' ').collect();
    words[11].parse::<u64>().unwrap() + words[12].parse::<u64>().unwrap()
}

#[test]
fn where_a_device_fails_always_a_flush_ends_and_nobody_spins() {
    let _alone = ALONE.lock();
    for mean_value in [400, 3000] {
        for manner in [FAILS_READS, FAILS_WRITES, FAILS_READS | FAILS_WRITES] {
            let (cache, ram) = over_ram(&Options { shards: 2, flash: 4_000_000, mean_value, ..small() });
            let value = vec![1; mean_value as usize];
            for number in 0..2000u32 {
                cache.set(&number.to_be_bytes(), &value, 0).unwrap();
                if number % 50 == 0 {
                    cache.flush().unwrap(); // (so that flash has something, also where writers come late)
                }
            }
            ram.manner.store(manner, SeqCst);
            for number in 0..4000u32 {
                let (old, new) = ((number / 2).to_be_bytes(), (number + 10_000).to_be_bytes());
                match number % 4 {
                    0 => drop(cache.delete(&old).unwrap()),
                    1 => drop(cache.get(&old).unwrap()),
                    2 => drop(cache.add(&old, &value, 0).unwrap()),
                    _ => cache.set(&new, &value, 0).unwrap(),
                }
            }
            let (tell, told) = mpsc::channel();
            let flushes = cache.clone();
            thread::spawn(move || tell.send(flushes.flush()).unwrap());
            assert_eq!(told.recv_timeout(LONG).expect("the flush ends"), Ok(()));
            let before = computed();
            thread::sleep(Duration::from_millis(500));
            let spent = computed() - before;
            assert!(spent < 25, "{spent} hundredths of a second in half of one, at {mean_value} and {manner}");
            let stats = cache.stats();
            assert!(stats.waiting == 0 && stats.device.read_failures + stats.device.write_failures > 0, "{stats}");
        }
    }
}

// A waker that panics, or uses the cache.
struct Waking(HybridCache, bool, mpsc::Sender<()>);

impl Wake for Waking {
    fn wake(self: Arc<Self>) {
        let Waking(cache, panics, says) = &*self;
        if *panics {
            says.send(()).unwrap();
            std::panic::resume_unwind(Box::new("a waker panics"));
        }
        cache.set(b"new", b"value", 0).unwrap();
        (0..300u32).for_each(|number| drop(cache.get(&number.to_be_bytes()).unwrap()));
        cache.delete(b"new").unwrap();
        cache.flush().unwrap();
        says.send(()).unwrap();
    }
}

// A cache of which most of 2,000 keys are on flash alone.
fn filled() -> (HybridCache, Arc<Ram>) {
    let (cache, ram) = over_ram(&Options { writers: 1, fillers: 1, ..small() });
    for number in 0..2000u32 {
        cache.set(&number.to_be_bytes(), &[7; 400], 0).unwrap();
    }
    cache.flush().unwrap();
    (cache, ram)
}

#[test]
fn a_waker_may_panic_and_may_use_the_cache() {
    let _alone = ALONE.lock();
    for panics in [true, false] {
        let (cache, ram) = filled();
        ram.shut(true);
        let (says, said) = mpsc::channel();
        let waker = Waker::from(Arc::new(Waking(cache.clone(), panics, says)));
        let mut get = pin!(cache.get_async(&[0; 4]));
        assert!(get.as_mut().poll(&mut Context::from_waker(&waker)).is_pending());
        ram.shut(false);
        said.recv_timeout(LONG).expect("it is woken, and ends");
        let found = get.as_mut().poll(&mut Context::from_waker(&waker));
        assert!(matches!(found, Poll::Ready(Ok(Some(value))) if *value == [7; 400]));
        assert!(cache.get(&5u32.to_be_bytes()).unwrap().is_some());
        cache.flush().unwrap();
    }
}

// Of each key that has a value: its version, and the second in which it is over (0: never).
type Model = HashMap<u64, (u64, u64)>;

#[test]
fn nothing_is_found_behind_its_time_in_memory_and_on_flash() {
    let _alone = ALONE.lock();
    let second = Arc::new(AtomicU64::new(1_000_000));
    let hand = Arc::clone(&second);
    let clock = Clock::new(move || hand.load(SeqCst));
    let (cache, _) =
        over_ram(&Options { memory: 400_000, flash: 6_000_000, shards: 2, mean_value: 500, clock, ..small() });
    let (mut model, mut seed, mut hits, mut expired) = (Model::new(), 7u64, 0, 0);
    let mut below = |limit: u64| {
        seed ^= seed << 13;
        seed ^= seed >> 7;
        seed ^= seed << 17;
        (seed >> 11) % limit
    };
    let version_of = |value: &[u8]| u64::from_le_bytes(value[..8].try_into().unwrap());
    for version in 1..100_000u64 {
        if below(40) == 0 {
            second.fetch_add(below(4), SeqCst);
        }
        let (now, number) = (second.load(SeqCst), below(3000));
        let (key, ttl) = (number.to_be_bytes(), [0, 1, 5, 60, 3600, u32::MAX][below(6) as usize]);
        let of = (version, if ttl == 0 { 0 } else { now + u64::from(ttl) });
        let value = [version.to_le_bytes().to_vec(), vec![3; below(900) as usize]].concat();
        let there = model.get(&number).filter(|(_, end)| *end == 0 || now < *end).map(|(version, _)| *version);
        match below(8) {
            0 | 1 => {
                cache.set(&key, &value, ttl).unwrap();
                model.insert(number, of);
            }
            2 => match cache.add(&key, &value, ttl).unwrap() {
                true => drop(model.insert(number, of)),
                false => assert!(there.is_some(), "an add found a value behind its time"),
            },
            3 => {
                cache.delete(&key).unwrap();
                model.remove(&number);
            }
            4 => {
                let mut is_loaded = false;
                let load = || {
                    is_loaded = true;
                    Ok::<_, Error>(value)
                };
                let row = cache.get_or_load(&key, ttl, load).unwrap();
                match is_loaded {
                    true => drop(model.insert(number, of)),
                    false => assert_eq!(Some(version_of(&row)), there),
                }
            }
            _ => match cache.get(&key).unwrap() {
                Some(value) => {
                    assert_eq!(Some(version_of(&value)), there, "key {number} in second {now}");
                    hits += 1;
                }
                None => expired += u64::from(there.is_none() && model.contains_key(&number)),
            },
        }
    }
    assert!(
        hits > 1000 && expired > 100 && cache.stats().hits_from_flash > 100,
        "{hits}, {expired}, {}",
        cache.stats()
    );
}

#[test]
fn keys_and_values_of_every_length_are_found_whole() {
    let _alone = ALONE.lock();
    for (mean_value, shards) in [(400, 2), (50_000, 1)] {
        let options = Options { memory: 8_000_000, flash: 64_000_000, mean_value, shards, ..small() };
        let (cache, _) = over_ram(&options);
        for key_bytes in [0, 1, 2, 46, 254, 255, 256, 70_000] {
            let key = vec![b'k'; key_bytes];
            for length in [0, 1, 4095, 4096, 4097, (1 << 20) - 1, 1 << 20, (1 << 20) + 1, 5 << 20] {
                let value = vec![length as u8; length];
                let can_be = (1..=255).contains(&key_bytes) && length <= 1 << 20;
                assert_eq!(cache.set(&key, &value, 0).is_ok(), can_be, "{key_bytes}, {length}");
                // (the row is answered, whatever the cache can have)
                assert!(*cache.get_or_load(&key, 0, || Ok::<_, Error>(&value[..])).unwrap() == value[..]);
                if can_be {
                    find_whole(&cache, &key, &value);
                }
            }
        }
        assert!(cache.stats().hits_from_flash > 0);
    }
}

// The value, also once it has left memory, where flash takes it.
fn find_whole(cache: &HybridCache, key: &[u8], value: &[u8]) {
    for number in 0..20u32 {
        cache.set(&number.to_be_bytes(), &vec![1; 500_000], 0).unwrap();
    }
    cache.flush().unwrap();
    assert!(cache.get(key).unwrap().is_none_or(|found| found[..] == *value));
    cache.set(key, value, 0).unwrap();
    let mut copy = vec![9; value.len()];
    assert_eq!(cache.get_into(key, &mut copy), Ok(Some(value.len())));
    assert!(copy == value);
    cache.delete(key).unwrap();
}

#[test]
fn a_thread_with_little_stack_may_call_the_cache() {
    let _alone = ALONE.lock();
    let work = || {
        let (cache, _) = over_ram(&Options { memory: 2_000_000, flash: 20_000_000, ..small() });
        for number in 0..30_000u32 {
            cache.set(&number.to_be_bytes(), &[1; 400], 0).unwrap();
            cache.get(&(number / 2).to_be_bytes()).unwrap();
            let load = || Ok::<_, Error>([2; 400]);
            cache.get_or_load(&(number / 3).to_be_bytes(), 0, load).unwrap();
        }
        cache.set(b"large", &vec![1; 1 << 20], 0).unwrap();
        assert_eq!(cache.get(b"large").unwrap().map(|value| value.len()), Some(1 << 20));
        cache.close().stats.hits()
    };
    // (tests are compiled with little optimization; 64 KiB are enough with more)
    let small = thread::Builder::new().stack_size(128 << 10).spawn(work).unwrap();
    assert!(small.join().unwrap() > 0);
}
