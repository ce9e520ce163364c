//! The meta commands.
use crate::answers::{Answers, Stream};
use crate::changes::{self, Beside, Counted, Stored};
use crate::classic::{count_miss, refused, NOT_A_NUMBER};
use crate::flags::{Flags, Meta, Verb};
use crate::head::{Head, Item, Marks, HEAD};
use crate::items::{Change, NotKept};
use crate::limits::has_memory;
use crate::moments::{self, Expiry};
use crate::request::{Direction, How, Store};
use crate::server::Worker;
use std::io;
use std::time::Duration;

const NO_MEMORY: &str = "SERVER_ERROR out of memory";
// Where there is no memory for so many bytes, no bar is set: each keeps its key, a task and its place in tables.
const OF_A_BAR: usize = 16 * 1024;
// After the end of a bar that was refused.
const PAUSE: Duration = Duration::from_millis(100);

/// Does what a meta command asks for, with the value that came with it.
pub async fn run<S: Stream>(
    worker: &Worker,
    meta: &Meta<'_>,
    value: &[u8],
    answers: &mut Answers<S>,
) -> io::Result<()> {
    match meta.verb {
        Verb::Get => get(worker, meta, answers).await?,
        Verb::Set { .. } => set(worker, meta, value, answers).await?,
        Verb::Delete => match meta.flags.bar {
            Some(seconds) => bar(worker, meta, seconds, answers).await?,
            None => delete(worker, meta, answers).await?,
        },
        Verb::Arithmetic => arithmetic(worker, meta, answers).await?,
        Verb::Debug => debug(worker, meta, answers).await,
        Verb::NoOp => answers.line(b"MN"),
    }
    Ok(())
}

impl Meta<'_> {
    // The opaque and the key, where they are asked for.
    fn echo<S: Stream>(&self, word: &[u8], is_binary: bool, answers: &mut Answers<S>) {
        match word[0] {
            b'O' => {
                answers.piece(b" ");
                answers.piece(word);
            }
            b'k' => {
                answers.piece(b" k");
                answers.key(&self.key, is_binary);
                answers.piece(if is_binary { b" b" } else { b"" });
            }
            _ => {}
        }
    }

    // An answer with nothing but these.
    fn short<S: Stream>(&self, code: &[u8], answers: &mut Answers<S>) {
        answers.piece(code);
        for word in self.flags.given() {
            self.echo(word, self.flags.is_binary(), answers);
        }
        answers.end_line();
    }
}

// What a command makes of an item, with the head that it had before.
struct Told {
    item: Item,
    is_new: bool,
    has_won: bool,
}

async fn get<S: Stream>(worker: &Worker, meta: &Meta<'_>, answers: &mut Answers<S>) -> io::Result<()> {
    let found = worker.server.items.find(&meta.key).await;
    let found = match found {
        found if changes_item(&meta.flags, found.as_ref()) => change(worker, meta).await?,
        found => found.map(|item| told(&meta.flags, item, false)),
    };
    count_get(worker, &meta.flags, found.as_ref());
    let wants_value = meta.flags.has(b'v');
    match found.filter(|told| !wants_value || answers.has_room_for(&told.item)) {
        Some(told) => hit(meta, &told, answers),
        None if meta.flags.is_quiet() => {}
        None => meta.short(b"EN", answers),
    }
    answers.make_room().await
}

// Whether a get changes what it finds, and so needs the key's lock.
fn changes_item(flags: &Flags<'_>, found: Option<&Item>) -> bool {
    let Some(Item { head, .. }) = found else { return flags.vivify.is_some() };
    let now = moments::now();
    let is_first = !head.marks.is_fetched || head.used != now;
    flags.time.is_some()
        || wins(flags, head, now)
        || (is_first && (flags.has(b'h') || flags.has(b'l')) && !flags.has(b'u'))
}

// Whether who finds the item is to store it anew.
fn wins(flags: &Flags<'_>, head: &Head, now: u32) -> bool {
    let expiry = expiry_until(flags, b'R', head.expiry, false);
    let ends_soon = flags.recache.is_some_and(|time| expiry.is_before(Expiry::of(time, now)));
    !head.marks.is_won && (head.marks.is_stale || ends_soon)
}

// When an item ends, as its flags before this one say: those that set it do so in their order.
fn expiry_until(flags: &Flags<'_>, flag: u8, before: Expiry, is_new: bool) -> Expiry {
    let now = moments::now();
    flags.given().iter().take_while(|word| word[0] != flag).fold(before, |expiry, word| match word[0] {
        b'T' => Expiry::of(flags.time.unwrap_or_default(), now),
        b'N' if is_new => Expiry::of(flags.vivify.unwrap_or_default(), now),
        _ => expiry,
    })
}

// The same get under the key's lock.
async fn change(worker: &Worker, meta: &Meta<'_>) -> io::Result<Option<Told>> {
    let change = worker.server.items.change(&meta.key).await?;
    let found = change.find().await;
    let is_new = found.is_none();
    let stub = || meta.flags.vivify.and_then(|_| stub(&change, &meta.flags));
    let Some(item) = found.or_else(stub) else { return Ok(None) };
    let mut told = told(&meta.flags, item, is_new);
    let (before, behind) = (told.item.head, head_behind(&meta.flags, &told));
    if behind == before && !is_new {
        return Ok(Some(told));
    }
    told.item.head = behind;
    let is_stored = change.store(&mut told.item).await.is_ok();
    told.item.head = before;
    // (where a stub can't be stored, nobody has won; an item that can't be is gone, and was found all the same)
    Ok((is_stored || !is_new).then_some(told))
}

// The empty item that is stored where there is none. When it ends is told, and set, as the flags come.
fn stub(change: &Change<'_>, flags: &Flags<'_>) -> Option<Item> {
    let marks = Marks { is_binary: flags.is_binary(), ..Marks::default() };
    Item::new(Head { marks, ..change.new_head(0, Expiry::Never) }, b"")
}

fn told(flags: &Flags<'_>, item: Item, is_new: bool) -> Told {
    let has_won = is_new || wins(flags, &item.head, moments::now());
    Told { item, is_new, has_won }
}

// The head of the item behind a get.
fn head_behind(flags: &Flags<'_>, told: &Told) -> Head {
    let mut head = told.item.head;
    head.expiry = expiry_until(flags, 0, head.expiry, told.is_new);
    if (flags.has(b'h') || flags.has(b'l')) && !flags.has(b'u') {
        head.marks.is_fetched = true;
        head.used = moments::now();
    }
    head.marks.is_won |= told.has_won;
    head
}

fn count_get(worker: &Worker, flags: &Flags<'_>, found: Option<&Told>) {
    let counters = &worker.counters;
    let is_hit = found.is_some_and(|told| !told.is_new);
    if is_hit && flags.time.is_some() {
        counters.cmd_touch.one();
        counters.touch_hits.one();
    } else {
        counters.cmd_get.one();
        counters.get_hits.one_or(is_hit, &counters.get_misses);
    }
    if let Some(told) = found {
        counters.leases_won.add(u64::from(told.has_won));
        counters.leases_taken.add(u64::from(told.item.head.marks.is_won));
    }
}

fn hit<S: Stream>(meta: &Meta<'_>, told: &Told, answers: &mut Answers<S>) {
    let value = meta.flags.has(b'v').then(|| told.item.value());
    match value {
        Some(value) => {
            answers.piece(b"VA ");
            answers.number(value.len() as u64);
        }
        None => answers.piece(b"HD"),
    }
    tell_flags(meta, told, answers);
    let Marks { is_stale, is_won, .. } = told.item.head.marks;
    for (is_so, mark) in [(is_won, b" Z"), (is_stale, b" X"), (told.has_won, b" W")] {
        answers.piece(if is_so { mark } else { b"" });
    }
    answers.end_line();
    if let Some(value) = value {
        answers.line(value);
    }
}

// What the flags ask for, in their order.
fn tell_flags<S: Stream>(meta: &Meta<'_>, told: &Told, answers: &mut Answers<S>) {
    let Item { head, .. } = &told.item;
    let now = moments::now();
    for word in meta.flags.given() {
        match word[0] {
            b't' => tell_left(expiry_until(&meta.flags, b't', head.expiry, told.is_new), now, answers),
            b's' => tell_number(b" s", told.item.value().len() as u64, answers),
            b'c' => tell_number(b" c", head.unique, answers),
            b'f' => tell_number(b" f", u64::from(head.flags), answers),
            b'l' => tell_number(b" l", u64::from(now.saturating_sub(head.used)), answers),
            b'h' => tell_number(b" h", u64::from(head.marks.is_fetched), answers),
            _ => meta.echo(word, head.marks.is_binary, answers),
        }
    }
}

fn tell_number<S: Stream>(flag: &[u8], number: u64, answers: &mut Answers<S>) {
    answers.piece(flag);
    answers.number(number);
}

fn tell_left<S: Stream>(expiry: Expiry, now: u32, answers: &mut Answers<S>) {
    match expiry.left(now) {
        None => answers.piece(b" t-1"),
        Some(left) => tell_number(b" t", u64::from(left), answers),
    }
}

/// How a meta set stores its value: what its mode says, and only over an item with its unique where it has one.
#[must_use]
pub fn how_of(flags: &Flags<'_>) -> How {
    match (flags.mode, flags.unique) {
        (Some(b'E'), _) => How::Add,
        (Some(b'A'), _) => How::Append,
        (Some(b'P'), _) => How::Prepend,
        (_, Some(_)) => How::CompareAndSet,
        (Some(b'R'), None) => How::Replace,
        (_, None) => How::Set,
    }
}

async fn set<S: Stream>(worker: &Worker, meta: &Meta<'_>, value: &[u8], answers: &mut Answers<S>) -> io::Result<()> {
    let flags = &meta.flags;
    let asked = Store {
        how: how_of(flags),
        key: &meta.key,
        flags: flags.client_flags,
        time: flags.time.unwrap_or_default(),
        length: value.len(),
        unique: flags.unique.unwrap_or_default(),
    };
    let beside = Beside { is_binary: flags.is_binary(), takes_stale: flags.has(b'I') };
    let change = worker.server.items.change(&meta.key).await?;
    let stored = changes::store(&change, &asked, beside, value, &worker.counters).await;
    drop(change);
    let (code, unique) = match stored {
        Ok(Stored::Yes(_)) if flags.is_quiet() => return Ok(()),
        Ok(Stored::Yes(unique)) => (b"HD", unique),
        Ok(Stored::No) => (b"NS", 0),
        Ok(Stored::Exists) => (b"EX", 0),
        Ok(Stored::NotFound) => (b"NF", 0),
        Err(why) => {
            answers.line(refused(&worker.counters, why).as_bytes());
            return Ok(());
        }
    };
    answers.piece(code);
    for word in flags.given() {
        match word[0] {
            b'c' => tell_number(b" c", unique, answers),
            _ => meta.echo(word, flags.is_binary(), answers),
        }
    }
    answers.end_line();
    Ok(())
}

async fn delete<S: Stream>(worker: &Worker, meta: &Meta<'_>, answers: &mut Answers<S>) -> io::Result<()> {
    let flags = &meta.flags;
    let counters = &worker.counters;
    let change = worker.server.items.change(&meta.key).await?;
    let found = change.find().await;
    let is_other = found.as_ref().is_some_and(|item| flags.unique.is_some_and(|unique| unique != item.head.unique));
    let (code, done) = match found {
        Some(_) if is_other => (b"EX", Ok(())),
        Some(item) if flags.has(b'I') => (b"HD", invalidate(&change, flags, item).await),
        Some(_) => (b"HD", change.remove().await),
        // (what flash couldn't tell in time goes too)
        None => (b"NF", change.remove().await),
    };
    if let (Some(number), false, Ok(())) = (flags.delta, is_other, done) {
        change.end_bar(number);
    }
    drop(change);
    match code {
        b"HD" if flags.has(b'I') => {}
        b"HD" => counters.delete_hits.one(),
        _ => counters.delete_misses.one(),
    }
    match done {
        Err(why) => answers.line(refused(&worker.counters, why).as_bytes()),
        Ok(()) if code == b"HD" && flags.is_quiet() => {}
        Ok(()) => meta.short(code, answers),
    }
    Ok(())
}

// Sets a bar: until it is ended by a delete of its number, or its seconds are over, nothing that was loaded is stored under the key.
async fn bar<S: Stream>(worker: &Worker, meta: &Meta<'_>, seconds: u32, answers: &mut Answers<S>) -> io::Result<()> {
    let change = worker.server.items.change(&meta.key).await?;
    let number = change.unique();
    if !has_memory(OF_A_BAR) {
        answers.line(NO_MEMORY.as_bytes());
        return Ok(());
    }
    let limit = end_bar(worker.clone(), meta.key.to_vec(), number, Duration::from_secs(seconds.into()));
    if !change.bar(tokio::spawn(limit)) {
        answers.line(b"SERVER_ERROR too many bars");
        return Ok(());
    }
    drop(change);
    worker.counters.bars_set.one();
    answers.piece(b"HD");
    for word in meta.flags.given() {
        match word[0] {
            b'B' => tell_number(b" B", number, answers),
            _ => meta.echo(word, meta.flags.is_binary(), answers),
        }
    }
    answers.end_line();
    Ok(())
}

// Ends a bar once its time is up: whether the row was changed isn't known, so what is there goes.
async fn end_bar(worker: Worker, key: Vec<u8>, number: u64, limit: Duration) {
    tokio::time::sleep(limit).await;
    let change = loop {
        match worker.server.items.change(&key).await {
            Ok(change) => break change,
            // (it stands until there is memory for its end)
            Err(_) => tokio::time::sleep(PAUSE).await,
        }
    };
    // (where even that is refused, the key is a miss)
    let _ = change.remove().await;
    worker.counters.bars_ended.one();
    change.end_bar(number);
}

// Marks the item as stale: the next who finds it is to store it anew, and what was loaded before isn't stored any more.
async fn invalidate(change: &Change<'_>, flags: &Flags<'_>, mut item: Item) -> Result<(), NotKept> {
    if let Some(time) = flags.time {
        item.head.expiry = Expiry::of(time, moments::now());
    }
    item.head.unique = change.unique();
    item.head.marks.is_stale = true;
    item.head.marks.is_won = false;
    change.store(&mut item).await
}

async fn arithmetic<S: Stream>(worker: &Worker, meta: &Meta<'_>, answers: &mut Answers<S>) -> io::Result<()> {
    let change = worker.server.items.change(&meta.key).await?;
    count(worker, meta, &change, answers).await;
    Ok(())
}

async fn count<S: Stream>(worker: &Worker, meta: &Meta<'_>, change: &Change<'_>, answers: &mut Answers<S>) {
    let flags = &meta.flags;
    let direction = if matches!(flags.mode, Some(b'D' | b'-')) { Direction::Down } else { Direction::Up };
    let delta = flags.delta.unwrap_or(1);
    let counted = changes::count(change, direction, delta, flags.unique.unwrap_or_default(), &worker.counters).await;
    let (value, item, is_new) = match counted {
        Counted::Now { value, item } => (value, Some(item), false),
        Counted::NoMemory => (0, None, false),
        Counted::NotFound => match flags.vivify {
            Some(_) => (flags.initial, first(change, meta), true),
            None => {
                count_miss(worker, direction);
                return meta.short(b"NF", answers);
            }
        },
        Counted::Exists => return meta.short(b"EX", answers),
        Counted::NotANumber => return answers.line(NOT_A_NUMBER.as_bytes()),
    };
    let Some(mut item) = item else { return answers.line(NO_MEMORY.as_bytes()) };
    let before = item.head.expiry;
    item.head.expiry = expiry_until(flags, 0, before, is_new);
    if change.store(&mut item).await.is_err() {
        return answers.line(NO_MEMORY.as_bytes());
    }
    item.head.expiry = before;
    if is_new || !flags.is_quiet() {
        tell_count(meta, value, &Told { item, is_new, has_won: false }, answers);
    }
}

// The item that counting begins with.
fn first(change: &Change<'_>, meta: &Meta<'_>) -> Option<Item> {
    let marks = Marks { is_binary: meta.flags.is_binary(), ..Marks::default() };
    let head = Head { marks, ..change.new_head(0, Expiry::Never) };
    Item::new(head, itoa::Buffer::new().format(meta.flags.initial).as_bytes())
}

fn tell_count<S: Stream>(meta: &Meta<'_>, value: u64, told: &Told, answers: &mut Answers<S>) {
    let mut digits = itoa::Buffer::new();
    let digits = digits.format(value).as_bytes();
    let wants_value = meta.flags.has(b'v');
    if wants_value {
        tell_number(b"VA ", digits.len() as u64, answers);
    } else {
        answers.piece(b"HD");
    }
    let Item { head, .. } = &told.item;
    for word in meta.flags.given() {
        match word[0] {
            b't' => {
                let expiry = expiry_until(&meta.flags, b't', head.expiry, told.is_new);
                tell_left(expiry, moments::now(), answers);
            }
            b'c' => tell_number(b" c", head.unique, answers),
            _ => meta.echo(word, meta.flags.is_binary(), answers),
        }
    }
    answers.end_line();
    if wants_value {
        answers.line(digits);
    }
}

async fn debug<S: Stream>(worker: &Worker, meta: &Meta<'_>, answers: &mut Answers<S>) {
    worker.counters.cmd_meta.one();
    let Some(item) = worker.server.items.find(&meta.key).await else { return answers.line(b"EN") };
    let Item { head, .. } = &item;
    let now = moments::now();
    let expiry = match head.expiry {
        Expiry::Never => -1,
        Expiry::At(second) => i64::from(now) - i64::from(second),
    };
    let (used, unique) = (now.saturating_sub(head.used), head.unique);
    let fetched = if head.marks.is_fetched { "yes" } else { "no" };
    let size = HEAD + meta.key.len() + item.value().len();
    answers.piece(b"ME ");
    answers.key(&meta.key, head.marks.is_binary);
    answers.line(format!(" exp={expiry} la={used} cas={unique} fetch={fetched} cls=1 size={size}").as_bytes());
}
