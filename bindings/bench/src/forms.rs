//! The forms of published traces: what a line says.
use crate::errors::{BadLine, SourceError};
use crate::lines::number;
use crate::request::{Op, Request};
use crate::sizes::Sizes;
use clap::ValueEnum;
use memchr::{memchr, memchr_iter, memrchr};
use std::time::Duration;

/// The form of a file.
#[derive(Clone, Copy, Debug, PartialEq, Eq, ValueEnum)]
pub enum Form {
    /// Twitter's: time, key, key's bytes, value's bytes, client, operation, time to live
    Twitter,
    /// Meta's key-value traces: a head, which names the columns key, op and size, and others
    Kvcache,
    /// A key a line, and the bytes of its value, if they are there, behind a comma, a tab or blanks
    Plain,
}

/// Reads lines of a form.
#[derive(Debug)]
pub enum Reader {
    Twitter,
    Kvcache(Columns),
    /// Values have these lengths where a line has none.
    Plain(Sizes),
}

/// What came of a line.
#[derive(Clone, Copy, Debug, PartialEq, Eq)]
pub enum Read {
    /// The request, so many times.
    Request { times: u64 },
    /// Nothing is asked: it is empty, or a comment.
    Nothing,
}

const ONE: Result<Read, BadLine> = Ok(Read::Request { times: 1 });

impl Reader {
    /// Reads the line into the request.
    pub fn read(&self, line: &[u8], request: &mut Request) -> Result<Read, BadLine> {
        if line.is_empty() {
            return Ok(Read::Nothing);
        }
        match self {
            Reader::Twitter => read_twitter(line, request),
            Reader::Kvcache(columns) => columns.read(line, request),
            Reader::Plain(sizes) => read_plain(line, sizes, request),
        }
    }
}

// The bytes of a value, which a trace may say to be longer than the cache takes.
fn size(text: &[u8], field: &'static str) -> Result<usize, BadLine> {
    u32::try_from(number(text, field)?).map(|size| size as usize).map_err(|_| BadLine::Number(field))
}

fn seconds(text: &[u8], field: &'static str) -> Result<Duration, BadLine> {
    let seconds = number(text, field)?;
    if seconds >> 53 == 0 {
        Ok(Duration::from_secs(seconds))
    } else {
        Err(BadLine::Number(field))
    }
}

// The key, with as many dots behind it as it had bytes more before its letters were exchanged.
fn set_key(key: &[u8], bytes: usize, request: &mut Request) -> Result<(), BadLine> {
    if key.is_empty() {
        return Err(BadLine::NoKey);
    }
    request.key.clear();
    request.key.extend_from_slice(key);
    if bytes > key.len() && bytes <= 255 {
        request.key.resize(bytes, b'.');
    }
    Ok(())
}

// A key may have commas: so the last five fields are taken from the end.
fn read_twitter(line: &[u8], request: &mut Request) -> Result<Read, BadLine> {
    let too_few = || BadLine::Fields { found: memchr_iter(b',', line).count() + 1, wanted: 7 };
    let first = memchr(b',', line).ok_or_else(too_few)?;
    let (time, mut rest) = (&line[..first], &line[first + 1..]);
    let mut last: [&[u8]; 5] = [&[]; 5];
    for field in last.iter_mut().rev() {
        let comma = memrchr(b',', rest).ok_or_else(too_few)?;
        *field = &rest[comma + 1..];
        rest = &rest[..comma];
    }
    let [key_bytes, value, _client, operation, ttl] = last;
    request.at = seconds(time, "time")?;
    request.op = match operation.trim_ascii() {
        b"get" | b"gets" => Op::Get,
        b"set" | b"add" | b"replace" | b"cas" | b"append" | b"prepend" | b"incr" | b"decr" => Op::Set,
        b"delete" => Op::Delete,
        _ => return Err(BadLine::Operation),
    };
    request.value = size(value, "value size")?;
    request.ttl = u32::try_from(number(ttl, "TTL")?).map_err(|_| BadLine::Number("TTL"))?;
    set_key(rest, size(key_bytes, "key size")?, request)?;
    ONE
}

/// Where the columns of Meta's traces stand.
#[derive(Clone, Copy, Debug, PartialEq, Eq)]
pub struct Columns {
    key: usize,
    op: usize,
    size: usize,
    op_count: Option<usize>,
    key_size: Option<usize>,
    time: Option<usize>,
    ttl: Option<usize>,
    least: usize,
}

// More columns than these have no use here, and aren't kept.
const MOST_COLUMNS: usize = 16;

impl Columns {
    /// By the head of the file with this name.
    pub fn of(name: &str, head: &[u8]) -> Result<Columns, SourceError> {
        let place = |column: &'static str| {
            head.split(|byte| *byte == b',')
                .take(MOST_COLUMNS)
                .position(|found| found.trim_ascii() == column.as_bytes())
        };
        let needed = |column| place(column).ok_or(SourceError::Head { name: name.to_string(), column });
        let (key, op, size) = (needed("key")?, needed("op")?, needed("size")?);
        let (op_count, key_size) = (place("op_count"), place("key_size"));
        let (time, ttl) = (place("op_time"), place("ttl"));
        let others = [op_count, key_size, time, ttl];
        let least = 1 + others.into_iter().flatten().fold(key.max(op).max(size), usize::max);
        Ok(Columns { key, op, size, op_count, key_size, time, ttl, least })
    }

    fn read(&self, line: &[u8], request: &mut Request) -> Result<Read, BadLine> {
        let mut fields: [&[u8]; MOST_COLUMNS] = [&[]; MOST_COLUMNS];
        let mut found = 0;
        for (place, field) in fields.iter_mut().zip(line.split(|byte| *byte == b',')) {
            *place = field.trim_ascii();
            found += 1;
        }
        if found < self.least {
            return Err(BadLine::Fields { found, wanted: self.least });
        }
        let or_none = |place: Option<usize>, name| place.map_or(Ok(0), |place| number(fields[place], name));
        request.op = match fields[self.op] {
            b"GET" | b"GET_LEASE" => Op::Get,
            b"SET" | b"SET_LEASE" => Op::Set,
            b"DELETE" => Op::Delete,
            _ => return Err(BadLine::Operation),
        };
        request.value = size(fields[self.size], "size")?;
        request.ttl = u32::try_from(or_none(self.ttl, "ttl")?).map_err(|_| BadLine::Number("ttl"))?;
        request.at = self.time.map_or(Ok(Duration::ZERO), |place| seconds(fields[place], "op_time"))?;
        let key_bytes = self.key_size.map_or(Ok(0), |place| size(fields[place], "key_size"))?;
        set_key(fields[self.key], key_bytes, request)?;
        Ok(Read::Request {
            times: if self.op_count.is_some() { or_none(self.op_count, "op_count")?.max(1) } else { 1 },
        })
    }
}

fn read_plain(line: &[u8], sizes: &Sizes, request: &mut Request) -> Result<Read, BadLine> {
    if memchr(0, line).is_some() {
        return Err(BadLine::Zero);
    }
    let mut words = line.split(|byte| b" \t,".contains(byte)).filter(|word| !word.is_empty());
    let Some(key) = words.next() else { return Ok(Read::Nothing) };
    if key.starts_with(b"#") {
        return Ok(Read::Nothing);
    }
    request.op = Op::Get;
    request.value = match (words.next(), words.next()) {
        (None, _) => sizes.of(hash(key), 0),
        (Some(word), None) => size(word, "size")?,
        (Some(_), Some(_)) => return Err(BadLine::Fields { found: 3 + words.count(), wanted: 2 }),
    };
    request.ttl = 0;
    set_key(key, 0, request)?;
    ONE
}

/// A hash of the key, of 64 bits (FNV-1a).
#[must_use]
pub fn hash(key: &[u8]) -> u64 {
    key.iter().fold(0xCBF2_9CE4_8422_2325, |hash, byte| (hash ^ u64::from(*byte)).wrapping_mul(0x0100_0000_01B3))
}
