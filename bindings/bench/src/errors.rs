//! Why requests can't be read.
use std::error;
use std::fmt;
use std::io;

/// What is wrong with a line.
#[derive(Clone, Copy, Debug, PartialEq, Eq)]
pub enum BadLine {
    /// It has more than [`LONGEST_LINE`](crate::lines::LONGEST_LINE) bytes.
    TooLong,
    /// There are fewer fields than the form has.
    Fields { found: usize, wanted: usize },
    /// A field isn't a number, or is larger than one of 32 bits (a time: of 53).
    Number(&'static str),
    /// The operation is none of the form's.
    Operation,
    /// The key is empty.
    NoKey,
    /// There is a byte 0, as in texts of 16 bits a letter.
    Zero,
}

impl fmt::Display for BadLine {
    fn fmt(&self, f: &mut fmt::Formatter<'_>) -> fmt::Result {
        match self {
            BadLine::TooLong => write!(f, "it has more than {} bytes", crate::lines::LONGEST_LINE),
            BadLine::Fields { found, wanted } => write!(f, "it has {found} fields, and not {wanted}"),
            BadLine::Number(field) => write!(f, "its {field} is no number, or too large"),
            BadLine::Operation => f.write_str("its operation is none of this form"),
            BadLine::NoKey => f.write_str("its key is empty"),
            BadLine::Zero => f.write_str("it has a byte 0: is it a text of this encoding?"),
        }
    }
}

/// Why there are no requests, or no more. `Display` tells it with the name of the file.
#[derive(Debug)]
pub enum SourceError {
    /// The system's error.
    Io {
        name: String,
        error: io::Error,
    },
    Directory {
        name: String,
    },
    /// There is no line at all.
    Empty {
        name: String,
    },
    /// It begins with the mark of another encoding than UTF-8.
    Encoding {
        name: String,
        found: &'static str,
    },
    /// The head lacks a column.
    Head {
        name: String,
        column: &'static str,
    },
    /// A line isn't of the form, and no more such lines may be passed over.
    Line {
        name: String,
        number: u64,
        why: BadLine,
        bad: u64,
    },
    /// The program that is to unpack it can't be started, or failed.
    Unpacking {
        name: String,
        program: &'static str,
        why: String,
    },
}

impl fmt::Display for SourceError {
    fn fmt(&self, f: &mut fmt::Formatter<'_>) -> fmt::Result {
        match self {
            SourceError::Io { name, error } => write!(f, "{name}: {error}"),
            SourceError::Directory { name } => write!(f, "{name}: it is a directory"),
            SourceError::Empty { name } => write!(f, "{name}: it is empty"),
            SourceError::Encoding { name, found } => write!(f, "{name}: it is {found}, and not UTF-8 or ASCII"),
            SourceError::Head { name, column } => write!(f, "{name}: line 1: the head has no column {column}"),
            SourceError::Line { name, number, why, bad } => {
                write!(f, "{name}: line {number}: {why}")?;
                match bad {
                    0..=1 => Ok(()),
                    bad => write!(f, " ({bad} bad lines; --bad-lines says how many may be passed over)"),
                }
            }
            SourceError::Unpacking { name, program, why } => write!(f, "{name}: {program}: {why}"),
        }
    }
}

impl error::Error for SourceError {
    fn source(&self) -> Option<&(dyn error::Error + 'static)> {
        match self {
            SourceError::Io { error, .. } => Some(error),
            _ => None,
        }
    }
}
