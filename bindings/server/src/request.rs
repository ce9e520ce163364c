//! What a line asks for.
use crate::flags::{self, Meta};
use crate::parse::{length_of, signed32, unsigned32, unsigned64, words_of, Words, LONGEST_KEY};

pub const BAD_FORMAT: &str = "CLIENT_ERROR bad command line format";
const ERROR: &str = "ERROR";
const BAD_TIME: &str = "CLIENT_ERROR invalid exptime argument";
const BAD_DELETE: &str = "CLIENT_ERROR bad command line format.  Usage: delete <key> [noreply]";

/// A line that asks for nothing that can be done.
#[derive(Clone, Copy, Debug, PartialEq, Eq)]
pub struct Fault {
    /// What is answered.
    pub text: &'static str,
    pub is_quiet: bool,
    /// The length of the value that comes behind it, and is passed over.
    pub value: Option<usize>,
}

impl Fault {
    #[must_use]
    pub fn of(text: &'static str) -> Fault {
        Fault { text, is_quiet: false, value: None }
    }

    /// The fault of a line that may want no answer.
    #[must_use]
    pub fn told_unless(is_quiet: bool, text: &'static str) -> Fault {
        Fault { text, is_quiet, value: None }
    }
}

/// How a value is stored.
#[derive(Clone, Copy, Debug, PartialEq, Eq)]
pub enum How {
    Set,
    Add,
    Replace,
    Append,
    Prepend,
    /// Where the item's unique is the one that is given.
    CompareAndSet,
}

/// A value that is to be stored. It comes behind the line.
#[derive(Clone, Debug, PartialEq, Eq)]
pub struct Store<'a> {
    pub how: How,
    pub key: &'a [u8],
    pub flags: u32,
    pub time: i32,
    pub length: usize,
    /// The unique that the item must have; 0: any.
    pub unique: u64,
}

/// Up or down.
#[derive(Clone, Copy, Debug, PartialEq, Eq)]
pub enum Direction {
    Up,
    Down,
}

/// What a client asks for.
#[derive(Clone, Debug)]
pub enum Command<'a> {
    Get { keys: Keys<'a>, with_unique: bool },
    GetAndTouch { keys: Keys<'a>, with_unique: bool, time: i32 },
    Store(Store<'a>),
    Delete(&'a [u8]),
    Count { key: &'a [u8], direction: Direction, delta: u64 },
    Touch { key: &'a [u8], time: i32 },
    FlushAll { delay: i32 },
    Stats { kind: &'a [u8] },
    Version,
    Verbosity,
    Quit,
    Meta(Meta<'a>),
}

/// A command, and whether its answer is left out.
#[derive(Clone, Debug)]
pub struct Request<'a> {
    pub command: Command<'a>,
    pub is_quiet: bool,
}

/// The keys of a get: none longer than a key may be.
#[derive(Clone, Copy, Debug)]
pub struct Keys<'a> {
    line: &'a [u8],
    // words in front of them
    skipped: usize,
}

impl<'a> Keys<'a> {
    fn of(line: &'a [u8], skipped: usize) -> Result<Keys<'a>, Fault> {
        let keys = Keys { line, skipped };
        match keys.iter().any(|key| key.len() > LONGEST_KEY) {
            true => Err(Fault::of(BAD_FORMAT)),
            false => Ok(keys),
        }
    }

    pub fn iter(&self) -> impl Iterator<Item = &'a [u8]> + Clone {
        words_of(self.line).skip(self.skipped)
    }
}

impl<'a> Request<'a> {
    /// What a line asks for. None: the connection is to be closed.
    pub fn of(line: &'a [u8]) -> Option<Result<Request<'a>, Fault>> {
        let words = Words::of(line);
        let all = words.all();
        let Some(name) = all.first().filter(|name| name.len() >= 2) else { return Some(Err(Fault::of(ERROR))) };
        let request = match *name {
            b"get" | b"gets" | b"gat" | b"gats" => get(line, all),
            b"set" => store(How::Set, all),
            b"add" => store(How::Add, all),
            b"replace" => store(How::Replace, all),
            b"append" => store(How::Append, all),
            b"prepend" => store(How::Prepend, all),
            b"cas" => store(How::CompareAndSet, all),
            b"delete" => delete(all),
            b"incr" => count(Direction::Up, all),
            b"decr" => count(Direction::Down, all),
            b"touch" => touch(all),
            b"flush_all" => flush_all(all),
            b"stats" => Ok(Request { command: Command::Stats { kind: second(all) }, is_quiet: false }),
            b"version" => Ok(Request { command: Command::Version, is_quiet: false }),
            b"verbosity" => verbosity(all),
            b"quit" => Ok(Request { command: Command::Quit, is_quiet: false }),
            b"shutdown" => Err(Fault::of("ERROR: shutdown not enabled")),
            [b'm', _] => flags::parsed(all).map(|meta| Request { is_quiet: false, command: Command::Meta(meta) }),
            // (a browser that was led here)
            _ if all.last().is_some_and(|word| word.starts_with(b"HTTP/")) => return None,
            _ => Err(Fault::of(ERROR)),
        };
        Some(request)
    }
}

fn second<'a>(words: &[&'a [u8]]) -> &'a [u8] {
    words.get(1).copied().unwrap_or_default()
}

// Whether the last word says that no answer is wanted.
fn is_quiet(words: &[&[u8]]) -> bool {
    words.last() == Some(&b"noreply".as_slice())
}

// So many words, or one more.
fn has_words(words: &[&[u8]], count: usize) -> Result<(), Fault> {
    if words.len() == count || words.len() == count + 1 {
        Ok(())
    } else {
        Err(Fault::of(ERROR))
    }
}

fn key_of<'a>(words: &[&'a [u8]], is_quiet: bool) -> Result<&'a [u8], Fault> {
    match words[1] {
        key if key.len() > LONGEST_KEY => Err(Fault::told_unless(is_quiet, BAD_FORMAT)),
        key => Ok(key),
    }
}

fn get<'a>(line: &'a [u8], words: &[&'a [u8]]) -> Result<Request<'a>, Fault> {
    if words.len() < 2 {
        return Err(Fault::of(ERROR));
    }
    let with_unique = words[0].ends_with(b"s");
    let command = if words[0].starts_with(b"gat") {
        let time = signed32(words[1]).ok_or(Fault::of(BAD_TIME))?;
        Command::GetAndTouch { keys: Keys::of(line, 2)?, with_unique, time }
    } else {
        Command::Get { keys: Keys::of(line, 1)?, with_unique }
    };
    Ok(Request { command, is_quiet: false })
}

fn store<'a>(how: How, words: &[&'a [u8]]) -> Result<Request<'a>, Fault> {
    let is_cas = how == How::CompareAndSet;
    has_words(words, if is_cas { 6 } else { 5 })?;
    let is_quiet = is_quiet(words);
    let key = key_of(words, is_quiet)?;
    let numbers = || {
        let unique = if is_cas { unsigned64(words[5])? } else { 0 };
        Some(Store {
            how,
            key,
            flags: unsigned32(words[2])?,
            time: signed32(words[3])?,
            length: length_of(words[4])?,
            unique,
        })
    };
    let store = numbers().ok_or(Fault::told_unless(is_quiet, BAD_FORMAT))?;
    Ok(Request { command: Command::Store(store), is_quiet })
}

fn delete<'a>(words: &[&'a [u8]]) -> Result<Request<'a>, Fault> {
    let is_quiet = words.len() > 2 && is_quiet(words);
    match words {
        [_, _] => {}
        // (a time of 0 was once part of it)
        [_, _, b"0" | b"noreply"] | [_, _, b"0", b"noreply"] => {}
        [_, _, _] | [_, _, _, _] => return Err(Fault::told_unless(is_quiet, BAD_DELETE)),
        _ => return Err(Fault::of(ERROR)),
    }
    Ok(Request { command: Command::Delete(key_of(words, is_quiet)?), is_quiet })
}

fn count<'a>(direction: Direction, words: &[&'a [u8]]) -> Result<Request<'a>, Fault> {
    has_words(words, 3)?;
    let is_quiet = is_quiet(words);
    let key = key_of(words, is_quiet)?;
    let bad = Fault::told_unless(is_quiet, "CLIENT_ERROR invalid numeric delta argument");
    let delta = unsigned64(words[2]).ok_or(bad)?;
    Ok(Request { command: Command::Count { key, direction, delta }, is_quiet })
}

fn touch<'a>(words: &[&'a [u8]]) -> Result<Request<'a>, Fault> {
    has_words(words, 3)?;
    let is_quiet = is_quiet(words);
    let key = key_of(words, is_quiet)?;
    let time = signed32(words[2]).ok_or(Fault::told_unless(is_quiet, BAD_TIME))?;
    Ok(Request { command: Command::Touch { key, time }, is_quiet })
}

fn flush_all<'a>(words: &[&'a [u8]]) -> Result<Request<'a>, Fault> {
    if words.len() > 3 {
        return Err(Fault::of(ERROR));
    }
    let is_quiet = is_quiet(words);
    let delay = match &words[1..] {
        [] | [b"noreply"] => 0,
        [delay, ..] => signed32(delay).ok_or(Fault::told_unless(is_quiet, BAD_TIME))?,
    };
    Ok(Request { command: Command::FlushAll { delay }, is_quiet })
}

fn verbosity<'a>(words: &[&'a [u8]]) -> Result<Request<'a>, Fault> {
    has_words(words, 2)?;
    let is_quiet = is_quiet(words);
    match unsigned32(words[1]) {
        Some(_) => Ok(Request { command: Command::Verbosity, is_quiet }),
        None => Err(Fault::told_unless(is_quiet, BAD_FORMAT)),
    }
}

#[cfg(test)]
mod tests {
    use super::*;

    fn command(line: &str) -> Command<'_> {
        Request::of(line.as_bytes()).unwrap().unwrap().command
    }

    fn fault(line: &str) -> Fault {
        Request::of(line.as_bytes()).unwrap().unwrap_err()
    }

    #[test]
    fn gets_have_any_number_of_keys() {
        let many = format!("get {}", "key ".repeat(100));
        let Command::Get { keys, with_unique: false } = command(&many) else { panic!() };
        assert_eq!(keys.iter().count(), 100);
        let Command::GetAndTouch { keys, with_unique: true, time: -5 } = command("gats -5 a b") else { panic!() };
        assert_eq!(keys.iter().collect::<Vec<_>>(), [b"a", b"b"]);
        assert_eq!(fault("get").text, "ERROR");
        assert_eq!(fault("gat x a").text, BAD_TIME);
        assert_eq!(fault(&format!("get a {}", "k".repeat(251))).text, BAD_FORMAT);
    }

    #[test]
    fn a_store_says_how_much_comes_behind_it() {
        let Command::Store(store) = command("cas key 7 -1 5 99 noreply") else { panic!() };
        assert_eq!((store.how, store.flags, store.time, store.length), (How::CompareAndSet, 7, -1, 5));
        assert_eq!((store.key, store.unique), (b"key".as_slice(), 99));
        for line in ["set key 0 0 -1", "set key x 0 1", "set key 0 0 5x", "cas key 0 0 1 x"] {
            assert_eq!(fault(line), Fault::of(BAD_FORMAT), "{line}");
        }
        assert!(fault("set key 0 0 x noreply").is_quiet);
        assert_eq!(fault("set key 0 0").text, "ERROR");
        assert_eq!(fault("set key 0 0 1 noreply more").text, "ERROR");
    }

    #[test]
    fn deletes_have_an_old_form() {
        for line in ["delete key", "delete key 0", "delete key noreply", "delete key 0 noreply"] {
            assert!(matches!(command(line), Command::Delete(b"key")), "{line}");
        }
        assert_eq!(fault("delete key 1").text, BAD_DELETE);
        assert_eq!(fault("delete key 0 1").text, BAD_DELETE);
        assert_eq!(fault("delete").text, "ERROR");
        assert_eq!(fault("delete a 0 noreply b").text, "ERROR");
    }

    #[test]
    fn what_is_unknown_is_an_error_and_a_browser_is_sent_away() {
        for line in ["", " ", "g", "nothing", "GET a", "mx key"] {
            assert_eq!(fault(line).text, "ERROR", "{line}");
        }
        assert!(Request::of(b"POST / HTTP/1.1").is_none());
        assert!(matches!(command("flush_all noreply"), Command::FlushAll { delay: 0 }));
        assert!(matches!(command("flush_all 10 noreply"), Command::FlushAll { delay: 10 }));
        assert!(matches!(command("verbosity 1"), Command::Verbosity));
        assert!(matches!(command("stats settings"), Command::Stats { kind: b"settings" }));
    }
}
