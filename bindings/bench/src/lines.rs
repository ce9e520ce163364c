//! Lines of a file, one at a time, none of which is kept longer than it may be.
use crate::errors::{BadLine, SourceError};
use memchr::memchr;
use std::io::{BufRead, BufReader, ErrorKind, Read};

/// The longest line, in bytes. Of a longer one no more is kept.
pub const LONGEST_LINE: usize = 1 << 16;

const BUFFER: usize = 1 << 18;

/// Reads lines.
pub struct Lines {
    name: String,
    input: BufReader<Box<dyn Read + Send>>,
    line: Vec<u8>,
    number: u64,
    bytes: u64,
}

/// A line that was read.
#[derive(Clone, Copy, Debug, PartialEq, Eq)]
pub enum Came {
    Line,
    TooLong,
    End,
}

impl Lines {
    /// Of this input. Where it begins with the mark of UTF-8, that is passed over; with that of another encoding it is refused, and
    /// so is an empty one.
    pub fn new(name: &str, input: Box<dyn Read + Send>) -> Result<Lines, SourceError> {
        let input = BufReader::with_capacity(BUFFER, input);
        let mut lines = Lines { name: name.to_string(), input, line: Vec::new(), number: 0, bytes: 0 };
        let head = lines.fill()?;
        let found = match head {
            [] => return Err(SourceError::Empty { name: name.to_string() }),
            [0xFF, 0xFE, ..] | [0xFE, 0xFF, ..] => "UTF-16",
            _ => {
                let mark = if head.starts_with(b"\xEF\xBB\xBF") { 3 } else { 0 };
                lines.input.consume(mark);
                return Ok(lines);
            }
        };
        Err(SourceError::Encoding { name: name.to_string(), found })
    }

    /// The file's name, as it was given.
    #[must_use]
    pub fn name(&self) -> &str {
        &self.name
    }

    /// The number of the last line, from 1.
    #[must_use]
    pub fn number(&self) -> u64 {
        self.number
    }

    /// Bytes that were read.
    #[must_use]
    pub fn bytes(&self) -> u64 {
        self.bytes
    }

    /// The last line, without its end.
    #[must_use]
    pub fn line(&self) -> &[u8] {
        &self.line
    }

    fn fill(&mut self) -> Result<&[u8], SourceError> {
        loop {
            match self.input.fill_buf() {
                Ok(_) => break,
                Err(error) if error.kind() == ErrorKind::Interrupted => {}
                Err(error) if error.kind() == ErrorKind::IsADirectory => {
                    return Err(SourceError::Directory { name: self.name.clone() })
                }
                Err(error) => return Err(SourceError::Io { name: self.name.clone(), error }),
            }
        }
        Ok(self.input.buffer())
    }

    /// Reads the next line.
    pub fn read(&mut self) -> Result<Came, SourceError> {
        self.line.clear();
        let mut length = 0;
        loop {
            let found = self.fill()?;
            let is_over = found.is_empty();
            let end = memchr(b'\n', found);
            let (text, used) = end.map_or((found.len(), found.len()), |end| (end, end + 1));
            // (the buffer is borrowed from the whole)
            let found = &self.input.buffer()[..text];
            let room = LONGEST_LINE.saturating_sub(self.line.len()).min(text);
            self.line.extend_from_slice(&found[..room]);
            self.input.consume(used);
            length += text;
            self.bytes += used as u64;
            if is_over && length == 0 {
                return Ok(Came::End);
            }
            if is_over || end.is_some() {
                break;
            }
        }
        self.number += 1;
        if self.line.last() == Some(&b'\r') {
            self.line.pop();
        }
        Ok(if length > LONGEST_LINE { Came::TooLong } else { Came::Line })
    }
}

/// A number of decimal digits, of at most 64 bits.
pub fn number(text: &[u8], field: &'static str) -> Result<u64, BadLine> {
    let text = text.trim_ascii();
    if text.is_empty() || text.len() > 19 {
        return Err(BadLine::Number(field));
    }
    let digits = text.iter().map(|digit| digit.wrapping_sub(b'0'));
    let sum = digits.clone().fold(0u64, |sum, digit| sum.wrapping_mul(10).wrapping_add(u64::from(digit)));
    let is_number = digits.fold(true, |is_number, digit| is_number & (digit < 10));
    is_number.then_some(sum).ok_or(BadLine::Number(field))
}

#[cfg(test)]
mod tests {
    use super::*;
    use std::io::Cursor;

    fn lines(text: &[u8]) -> Result<Lines, SourceError> {
        Lines::new("it", Box::new(Cursor::new(text.to_vec())))
    }

    #[test]
    fn lines_come_without_their_ends() {
        let mut lines = lines(b"one\r\n\ntwo\nlast").unwrap();
        for wanted in ["one", "", "two", "last"] {
            assert_eq!((lines.read().unwrap(), lines.line()), (Came::Line, wanted.as_bytes()));
        }
        assert_eq!((lines.read().unwrap(), lines.number()), (Came::End, 4));
    }

    #[test]
    fn a_line_of_ten_megabytes_is_passed_and_not_kept() {
        let mut text = vec![b'x'; 10_000_000];
        text.extend_from_slice(b"\nnext\n");
        let mut lines = lines(&text).unwrap();
        assert_eq!(lines.read().unwrap(), Came::TooLong);
        assert!(lines.line.capacity() <= 2 * LONGEST_LINE, "{}", lines.line.capacity());
        assert_eq!((lines.read().unwrap(), lines.line()), (Came::Line, &b"next"[..]));
        assert_eq!(lines.bytes(), text.len() as u64);
    }

    #[test]
    fn encodings_are_told_by_their_marks() {
        assert!(matches!(lines(b""), Err(SourceError::Empty { .. })));
        assert!(matches!(lines(b"\xFF\xFEa\0"), Err(SourceError::Encoding { .. })));
        assert!(matches!(lines(b"\xFE\xFF\0a"), Err(SourceError::Encoding { .. })));
        let mut marked = lines(b"\xEF\xBB\xBFa\n").unwrap();
        assert_eq!((marked.read().unwrap(), marked.line()), (Came::Line, &b"a"[..]));
    }

    #[test]
    fn numbers_are_digits_alone() {
        assert_eq!(number(b" 120 ", "size"), Ok(120));
        for text in [&b""[..], b"-1", b"1.5", b"12a", b"99999999999999999999"] {
            assert_eq!(number(text, "size"), Err(BadLine::Number("size")));
        }
    }
}
