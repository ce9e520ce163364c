//! A server that speaks memcached's text protocol, for the same requests.
use crate::request::{Op, Request};
use crate::sizes::LONGEST_VALUE;
use crate::target::{longest_value, Answer, Target};
use std::io::{self, BufRead, BufReader, ErrorKind, Read, Write};
use std::net::TcpStream;
use std::sync::{Mutex, PoisonError};

/// The longest key of that protocol, in bytes.
const LONGEST_KEY: usize = 250;
// More seconds than these are a date.
const MOST_SECONDS: u32 = 30 * 86_400;

/// The server. Each thread that asks has a connection of its own for so long.
pub struct Memcached {
    address: String,
    idle: Mutex<Vec<Connection>>,
    value: Vec<u8>,
}

struct Connection {
    stream: BufReader<TcpStream>,
    line: Vec<u8>,
    asked: Vec<u8>,
}

impl Connection {
    fn open(address: &str) -> io::Result<Connection> {
        let stream = TcpStream::connect(address)?;
        stream.set_nodelay(true)?;
        Ok(Connection { stream: BufReader::new(stream), line: Vec::new(), asked: Vec::new() })
    }

    // Sends what is asked, and reads the first line of the answer.
    fn ask(&mut self) -> io::Result<&[u8]> {
        self.stream.get_mut().write_all(&self.asked)?;
        self.read_line()
    }

    fn read_line(&mut self) -> io::Result<&[u8]> {
        self.line.clear();
        self.stream.read_until(b'\n', &mut self.line)?;
        match self.line.strip_suffix(b"\r\n") {
            Some(line) => Ok(line),
            None => Err(ErrorKind::UnexpectedEof.into()),
        }
    }

    // The bytes of the value under the key.
    fn get(&mut self, key: &[u8]) -> io::Result<Option<usize>> {
        self.begin(&[b"get ", key, b"\r\n"]);
        let line = self.ask()?;
        if line == b"END" {
            return Ok(None);
        }
        let bytes =
            line.rsplit(|byte| *byte == b' ').next().and_then(|word| std::str::from_utf8(word).ok()?.parse().ok());
        let bytes: usize = bytes.ok_or(ErrorKind::InvalidData)?;
        self.asked.resize(bytes + 2, 0);
        self.stream.read_exact(&mut self.asked)?;
        match self.read_line()? {
            b"END" => Ok(Some(bytes)),
            _ => Err(ErrorKind::InvalidData.into()),
        }
    }

    // Whether it is stored.
    fn set(&mut self, key: &[u8], value: &[u8], ttl: u32) -> io::Result<bool> {
        let head = format!(" 0 {} {}\r\n", ttl.min(MOST_SECONDS), value.len());
        self.begin(&[b"set ", key, head.as_bytes(), value, b"\r\n"]);
        Ok(self.ask()? == b"STORED")
    }

    fn delete(&mut self, key: &[u8]) -> io::Result<()> {
        self.begin(&[b"delete ", key, b"\r\n"]);
        self.ask().map(|_| ())
    }

    fn begin(&mut self, parts: &[&[u8]]) {
        self.asked.clear();
        parts.iter().for_each(|part| self.asked.extend_from_slice(part));
    }
}

impl Memcached {
    /// The server at this address, which is asked whether it is there.
    pub fn new(address: &str) -> io::Result<Memcached> {
        let idle = Mutex::new(vec![Connection::open(address)?]);
        Ok(Memcached { address: address.to_string(), idle, value: longest_value() })
    }

    fn connection(&self) -> io::Result<Connection> {
        let idle = self.idle.lock().unwrap_or_else(PoisonError::into_inner).pop();
        idle.map_or_else(|| Connection::open(&self.address), Ok)
    }

    fn answer(&self, request: &Request, connection: &mut Connection) -> io::Result<Answer> {
        let Request { op, ref key, value, ttl, .. } = *request;
        let stores = |connection: &mut Connection| connection.set(key, &self.value[..value], ttl);
        Ok(match op {
            Op::Get | Op::Look => match connection.get(key)? {
                Some(bytes) => Answer::Hit { from_flash: false, bytes },
                None => {
                    // (what it doesn't store misses the next time too)
                    let _is_stored = op == Op::Get && stores(connection)?;
                    Answer::Miss
                }
            },
            Op::Set if stores(connection)? => Answer::Stored,
            Op::Set => Answer::Refused,
            Op::Delete => {
                connection.delete(key)?;
                Answer::Deleted
            }
        })
    }
}

impl Target for Memcached {
    fn ask(&self, request: &Request) -> Answer {
        let key = &request.key;
        let is_its_own =
            !key.is_empty() && key.len() <= LONGEST_KEY && key.iter().all(|byte| *byte > b' ' && *byte != 127);
        if !is_its_own || request.value > LONGEST_VALUE {
            return Answer::TooLong;
        }
        // (a connection that failed isn't used again)
        let answered = self.connection().and_then(|mut connection| {
            let answer = self.answer(request, &mut connection)?;
            self.idle.lock().unwrap_or_else(PoisonError::into_inner).push(connection);
            Ok(answer)
        });
        answered.unwrap_or(Answer::Refused)
    }
}
