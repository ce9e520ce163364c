//! Tasks that load what they miss: one of them does, and the others are handed what that came to.
use kilambosetry::{HybridCache, LoadError, Loaded, Options};
use std::cell::Cell;
use std::convert::Infallible;
use std::future::{poll_fn, Future};
use std::io;
use std::pin::{pin, Pin};
use std::task::{Context, Poll, Waker};
use std::time::Duration;

fn cache() -> HybridCache {
    HybridCache::in_memory(&Options { patience: Duration::from_secs(60), ..Options::default() }).unwrap()
}

fn poll<T>(task: Pin<&mut impl Future<Output = T>>) -> Poll<T> {
    task.poll(&mut Context::from_waker(Waker::noop()))
}

fn ready<T>(task: impl Future<Output = T>) -> T {
    match poll(pin!(task)) {
        Poll::Ready(answer) => answer,
        Poll::Pending => panic!("it waits"),
    }
}

// A database that answers once it is open.
#[derive(Default)]
struct Database {
    is_open: Cell<bool>,
    asked: Cell<u32>,
}

impl Database {
    async fn load<T>(&self, answer: T) -> T {
        self.asked.set(self.asked.get() + 1);
        poll_fn(|_| if self.is_open.get() { Poll::Ready(()) } else { Poll::Pending }).await;
        answer
    }
}

#[test]
fn one_task_loads_and_the_others_wait_for_it() {
    let (cache, database) = (cache(), Database::default());
    let load = || database.load(Ok::<_, Infallible>("row"));
    let mut first = pin!(cache.get_or_load_async(b"key", 60, load));
    let mut second = pin!(cache.get_or_load_async(b"key", 60, load));
    assert!(poll(first.as_mut()).is_pending() && poll(second.as_mut()).is_pending());
    database.is_open.set(true);
    assert!(poll(second.as_mut()).is_pending()); // (the first one's load isn't over)
    let Poll::Ready(Ok(row)) = poll(first) else { panic!("it isn't loaded") };
    assert_eq!(&row[..], b"row");
    let Poll::Ready(Ok(row)) = poll(second) else { panic!("it isn't told") };
    assert_eq!((&row[..], database.asked.get()), (&b"row"[..], 1));
    assert_eq!(&ready(cache.get_or_load_async(b"key", 60, load)).unwrap()[..], b"row");
    assert_eq!(database.asked.get(), 1);
}

#[test]
fn a_load_that_fails_or_whose_task_is_dropped_is_told_who_waits() {
    let (cache, database) = (cache(), Database::default());
    let fails = || database.load(Err::<&str, _>("no database"));
    let mut first = pin!(cache.get_or_load_async(b"key", 60, fails));
    let mut second = pin!(cache.get_or_load_async(b"key", 60, fails));
    assert!(poll(first.as_mut()).is_pending() && poll(second.as_mut()).is_pending());
    database.is_open.set(true);
    assert!(matches!(poll(first), Poll::Ready(Err(LoadError::Load("no database")))));
    assert!(matches!(poll(second), Poll::Ready(Err(LoadError::Elsewhere(why))) if why == "no database"));
    database.is_open.set(false);
    let mut dropped = Box::pin(cache.get_or_load_async(b"key", 60, fails));
    let mut waits = pin!(cache.get_or_load_async(b"key", 60, fails));
    assert!(poll(dropped.as_mut()).is_pending() && poll(waits.as_mut()).is_pending());
    drop(dropped);
    assert!(matches!(poll(waits), Poll::Ready(Err(LoadError::Elsewhere(_)))));
}

#[test]
fn what_was_loaded_before_a_change_is_answered_and_not_stored() {
    let (cache, database) = (cache(), Database::default());
    let mut load = pin!(cache.get_or_load_async(b"key", 60, || database.load(Ok::<_, Infallible>("old"))));
    assert!(poll(load.as_mut()).is_pending());
    cache.delete(b"key").unwrap();
    database.is_open.set(true);
    let Poll::Ready(Ok(row)) = poll(load) else { panic!("it isn't loaded") };
    assert_eq!(&row[..], b"old");
    assert_eq!(cache.get(b"key"), Ok(None));
}

#[test]
fn that_there_is_no_such_row_is_kept_until_somebody_loads_one() {
    let (cache, database) = (cache(), Database::default());
    database.is_open.set(true);
    let none = || database.load(Ok::<_, io::Error>(Loaded::absent(60)));
    assert_eq!(ready(cache.find_or_load_async(b"key", none)).unwrap(), None);
    assert_eq!(ready(cache.find_or_load_async(b"key", none)).unwrap(), None);
    assert_eq!(database.asked.get(), 1);
    // (as `get_or_load`, which knows of no absent rows)
    let row = ready(cache.get_or_load_async(b"key", 60, || database.load(Ok::<_, io::Error>("row")))).unwrap();
    assert_eq!(&row[..], b"row");
    assert_eq!(ready(cache.find_or_load_async(b"key", none)).unwrap().as_deref(), Some(&b"row"[..]));
    assert_eq!(database.asked.get(), 2);
}

#[test]
fn a_task_that_loads_may_change_threads() {
    fn sent<T: Send>(_: T) {}
    let cache = cache();
    sent(cache.get_or_load_async(b"key", 60, async || Ok::<_, Infallible>("row")));
    sent(cache.find_or_load_async(b"key", async || Ok::<_, Infallible>(Loaded::absent(1))));
}
