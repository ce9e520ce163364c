//! The requests of a file.
use crate::errors::{BadLine, SourceError};
use crate::forms::{Columns, Form, Read, Reader};
use crate::lines::{Came, Lines};
use crate::request::{Op, Passed, Request, Source};
use crate::sizes::Sizes;
use crate::unpack::{self, Opened};
use std::path::Path;
use std::time::Duration;

/// A share of bad lines is one of at least so many.
const FEW: u64 = 1000;

/// A file of requests.
pub struct Trace {
    lines: Lines,
    reader: Reader,
    length: Option<u64>,
    // the share of lines that may be passed over
    may_be_bad: f64,
    passed: Passed,
    // the last request is to be made so often again
    again: u64,
    first_at: Option<Duration>,
    requests: u64,
}

impl Trace {
    /// Opens the file, of this form; `-` is the standard input. Up to a share `may_be_bad` of its lines (and of its first 1,000) may
    /// be passed over. `sizes` are those of values where a plain list has none.
    pub fn open(path: &Path, form: Form, sizes: Sizes, may_be_bad: f64) -> Result<Trace, SourceError> {
        Trace::of(&path.display().to_string(), unpack::open(path)?, form, sizes, may_be_bad)
    }

    /// The same of what is open already.
    pub fn of(name: &str, opened: Opened, form: Form, sizes: Sizes, may_be_bad: f64) -> Result<Trace, SourceError> {
        let mut lines = Lines::new(name, opened.input)?;
        let reader = match form {
            Form::Twitter => Reader::Twitter,
            Form::Plain => Reader::Plain(sizes),
            Form::Kvcache => {
                lines.read()?;
                Reader::Kvcache(Columns::of(name, lines.line())?)
            }
        };
        let passed = Passed::default();
        let length = opened.length;
        Ok(Trace { lines, reader, length, may_be_bad, passed, again: 0, first_at: None, requests: 0 })
    }

    // A line isn't of the form: it is passed over, or the end.
    fn pass_over(&mut self, why: BadLine) -> Result<(), SourceError> {
        self.passed.bad += 1;
        let may_be = self.may_be_bad * self.lines.number().max(FEW) as f64;
        if self.passed.bad as f64 <= may_be {
            return Ok(());
        }
        let (name, number) = (self.lines.name().to_string(), self.lines.number());
        Err(SourceError::Line { name, number, why, bad: self.passed.bad })
    }

    fn read(&mut self, came: Came, request: &mut Request) -> Result<u64, SourceError> {
        let read = match came {
            Came::TooLong => Err(BadLine::TooLong),
            _ => self.reader.read(self.lines.line(), request),
        };
        match read {
            Ok(Read::Request { times }) => Ok(times),
            Ok(Read::Nothing) => Ok(0),
            Err(why) => self.pass_over(why).map(|()| 0),
        }
    }

    // What the line says, and what follows from that.
    fn settle(&mut self, request: &mut Request) {
        let first = *self.first_at.get_or_insert(request.at);
        request.at = request.at.saturating_sub(first);
        if request.op == Op::Get && request.value == 0 {
            request.op = Op::Look;
            self.passed.unsized_gets += 1;
        }
    }
}

impl Source for Trace {
    fn next(&mut self, request: &mut Request) -> Result<bool, SourceError> {
        // (the caller's request may be another one by now)
        if self.again > 0 {
            self.again -= 1;
            self.reader_again(request)?;
            return Ok(true);
        }
        loop {
            let came = self.lines.read()?;
            self.passed.lines = self.lines.number();
            if came == Came::End {
                return self.end();
            }
            let times = self.read(came, request)?;
            if times > 0 {
                self.again = times - 1;
                self.requests += 1;
                self.settle(request);
                return Ok(true);
            }
        }
    }

    fn share_done(&self) -> Option<f64> {
        self.length.map(|length| self.lines.bytes() as f64 / length.max(1) as f64)
    }

    fn passed(&self) -> Passed {
        self.passed
    }
}

impl Trace {
    // The last line once more.
    fn reader_again(&mut self, request: &mut Request) -> Result<(), SourceError> {
        self.read(Came::Line, request)?;
        self.settle(request);
        Ok(())
    }

    // A file without a request is as good as an empty one.
    fn end(&self) -> Result<bool, SourceError> {
        match self.requests {
            0 => Err(SourceError::Empty { name: self.lines.name().to_string() }),
            _ => Ok(false),
        }
    }
}
