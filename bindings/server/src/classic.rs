//! The classic text commands.
use crate::answers::{Answers, Stream};
use crate::changes::{self, Beside, Counted, Stored};
use crate::counters::Counters;
use crate::head::Item;
use crate::items::{NotKept, Wait};
use crate::moments::{self, Expiry};
use crate::request::{Command, Direction, Keys, Request, Store};
use crate::server::{Worker, VERSION};
use crate::{meta, stats};
use std::io;
use tokio::task;

/// Behind so many keys of a get the other connections of the thread have their turn.
pub const KEYS_AT_ONCE: usize = 256;

pub const NO_MEMORY: &str = "SERVER_ERROR out of memory storing object";
pub const NOT_A_NUMBER: &str = "CLIENT_ERROR cannot increment or decrement non-numeric value";

/// What is answered where an item wasn't stored, which is counted.
#[must_use]
pub fn refused(counters: &Counters, why: NotKept) -> &'static str {
    match why {
        NotKept::TooLarge => {
            counters.store_too_large.one();
            "SERVER_ERROR object too large for cache"
        }
        NotKept::NoMemory => {
            counters.store_no_memory.one();
            NO_MEMORY
        }
    }
}

/// Does what a client asks for, with the value that came with it.
pub async fn run<S: Stream>(
    worker: &Worker,
    request: Request<'_>,
    value: &[u8],
    answers: &mut Answers<S>,
) -> io::Result<()> {
    let text = match &request.command {
        Command::Get { keys, with_unique } => return get(worker, keys, *with_unique, answers).await,
        Command::GetAndTouch { keys, with_unique, time } => {
            return get_and_touch(worker, keys, *with_unique, *time, answers).await;
        }
        Command::Meta(meta) => return meta::run(worker, meta, value, answers).await,
        Command::Count { key, direction, delta } => {
            return count(worker, key, *direction, *delta, request.is_quiet, answers).await;
        }
        Command::Stats { kind } => return stats::answer(worker, kind, answers),
        Command::Version => {
            answers.piece(b"VERSION ");
            VERSION
        }
        Command::Store(asked) => store(worker, asked, value).await?,
        Command::Delete(key) => delete(worker, key).await?,
        Command::Touch { key, time } => touch(worker, key, *time).await?,
        Command::FlushAll { delay } => flush_all(worker, *delay),
        Command::Verbosity => "OK",
        Command::Quit => return Ok(()),
    };
    answers.line_unless(request.is_quiet, text.as_bytes());
    Ok(())
}

async fn get<S: Stream>(
    worker: &Worker,
    keys: &Keys<'_>,
    with_unique: bool,
    answers: &mut Answers<S>,
) -> io::Result<()> {
    let mut finds = worker.server.finds(keys.iter());
    let mut number = 0;
    while let Some((key, found)) = finds.next().await {
        number += 1;
        let counters = &worker.counters;
        if number % KEYS_AT_ONCE == 0 {
            counters.conn_yields.one();
            task::yield_now().await;
        }
        counters.cmd_get.one();
        counters.get_hits.one_or(found.is_some(), &counters.get_misses);
        tell(key, found, with_unique, answers).await?;
    }
    answers.line(b"END");
    Ok(())
}

async fn get_and_touch<S: Stream>(
    worker: &Worker,
    keys: &Keys<'_>,
    with_unique: bool,
    time: i32,
    answers: &mut Answers<S>,
) -> io::Result<()> {
    let items = &worker.server.items;
    let mut finds = worker.server.finds(keys.iter());
    let are_asked_for = items.longest_on_flash().is_some() && keys.iter().nth(1).is_some();
    for key in keys.iter() {
        if are_asked_for {
            // (without the key's lock, so that it is likely in memory once it is touched)
            finds.next_found().await;
        }
        let found = touched(worker, key, time, finds.wait()).await?;
        tell(key, found, with_unique, answers).await?;
    }
    answers.line(b"END");
    Ok(())
}

// The line of an item, and its value.
async fn tell<S: Stream>(
    key: &[u8],
    found: Option<Item>,
    with_unique: bool,
    answers: &mut Answers<S>,
) -> io::Result<()> {
    let Some(item) = found.filter(|item| answers.has_room_for(item)) else { return Ok(()) };
    answers.piece(b"VALUE ");
    answers.piece(key);
    answers.piece(b" ");
    answers.number(u64::from(item.head.flags));
    answers.piece(b" ");
    answers.number(item.value().len() as u64);
    if with_unique {
        answers.piece(b" ");
        answers.number(item.head.unique);
    }
    answers.end_line();
    answers.line(item.value());
    answers.make_room().await
}

// The item under the key, which ends at another time from now on.
async fn touched(worker: &Worker, key: &[u8], time: i32, wait: &mut Wait) -> io::Result<Option<Item>> {
    let counters = &worker.counters;
    counters.cmd_touch.one();
    let change = worker.server.items.change(key).await?;
    let found = change.find_within(wait).await;
    counters.touch_hits.one_or(found.is_some(), &counters.touch_misses);
    let Some(mut item) = found else { return Ok(None) };
    item.head.expiry = Expiry::of(time, moments::now());
    // (where the cache is out of memory, the item is gone: that may be so at any time)
    let _ = change.store(&mut item).await;
    Ok(Some(item))
}

async fn touch(worker: &Worker, key: &[u8], time: i32) -> io::Result<&'static str> {
    let found = touched(worker, key, time, &mut worker.server.items.wait()).await?;
    Ok(if found.is_some() { "TOUCHED" } else { "NOT_FOUND" })
}

async fn store(worker: &Worker, asked: &Store<'_>, value: &[u8]) -> io::Result<&'static str> {
    let change = worker.server.items.change(asked.key).await?;
    Ok(match changes::store(&change, asked, Beside::default(), value, &worker.counters).await {
        Ok(Stored::Yes(_)) => "STORED",
        Ok(Stored::No) => "NOT_STORED",
        Ok(Stored::Exists) => "EXISTS",
        Ok(Stored::NotFound) => "NOT_FOUND",
        Err(why) => refused(&worker.counters, why),
    })
}

async fn delete(worker: &Worker, key: &[u8]) -> io::Result<&'static str> {
    let change = worker.server.items.change(key).await?;
    let found = change.find().await;
    if change.remove().await.is_err() {
        return Ok(NO_MEMORY);
    }
    let counters = &worker.counters;
    counters.delete_hits.one_or(found.is_some(), &counters.delete_misses);
    Ok(if found.is_some() { "DELETED" } else { "NOT_FOUND" })
}

async fn count<S: Stream>(
    worker: &Worker,
    key: &[u8],
    direction: Direction,
    delta: u64,
    is_quiet: bool,
    answers: &mut Answers<S>,
) -> io::Result<()> {
    let change = worker.server.items.change(key).await?;
    let text = match changes::count(&change, direction, delta, 0, &worker.counters).await {
        Counted::Now { value, mut item } => match change.store(&mut item).await {
            Ok(()) => {
                answers.line_unless(is_quiet, itoa::Buffer::new().format(value).as_bytes());
                return Ok(());
            }
            Err(_) => "SERVER_ERROR out of memory",
        },
        Counted::NotFound => {
            count_miss(worker, direction);
            "NOT_FOUND"
        }
        Counted::NotANumber | Counted::Exists => NOT_A_NUMBER,
        Counted::NoMemory => "SERVER_ERROR out of memory",
    };
    answers.line_unless(is_quiet, text.as_bytes());
    Ok(())
}

/// Counts that there was nothing to count up or down.
pub fn count_miss(worker: &Worker, direction: Direction) {
    match direction {
        Direction::Up => worker.counters.incr_misses.one(),
        Direction::Down => worker.counters.decr_misses.one(),
    }
}

fn flush_all(worker: &Worker, delay: i32) -> &'static str {
    worker.counters.cmd_flush.one();
    worker.server.items.flush(Expiry::of(delay, moments::now()));
    "OK"
}
