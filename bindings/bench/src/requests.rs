//! The requests that the command line asks for.
use crate::bytes::Bytes;
use crate::errors::SourceError;
use crate::forms::Form;
use crate::generate::{Generated, Law, Load, MOST_KEYS};
use crate::request::{First, Op, Request, Source};
use crate::sizes::Sizes;
use crate::target::LONGEST_KEY;
use crate::trace::Trace;
use clap::{value_parser, Args};
use std::path::{Path, PathBuf};

/// Which requests.
#[derive(Clone, Debug, Args)]
#[command(next_help_heading = "Requests")]
pub struct Requests {
    /// A file of requests, packed by gzip or zstd or not; - is the standard input. Without it requests are made up
    pub trace: Option<PathBuf>,

    /// The form of the file
    #[arg(long, value_enum, default_value_t = Form::Plain)]
    pub form: Form,

    /// The share of lines that may be passed over, since they aren't of the form
    #[arg(long, value_name = "SHARE", default_value_t = 0.0, value_parser = share)]
    pub bad_lines: f64,

    /// The first so many requests; of made up ones 1000000 where nothing else is said
    #[arg(long, value_name = "COUNT")]
    pub requests: Option<u64>,

    /// Made up: which keys are asked for: uniform, zipf:EXPONENT or hot:KEYS:REQUESTS:MOVES, where :MOVES may be left out
    #[arg(long, value_name = "LAW", default_value = "zipf:0.9")]
    pub load: Law,

    /// Made up: so many keys
    #[arg(long, value_name = "COUNT", default_value_t = 100_000, value_parser = value_parser!(u64).range(1..MOST_KEYS))]
    pub keys: u64,

    /// Made up: bytes of a key
    #[arg(long, value_name = "BYTES", default_value_t = 24, value_parser = value_parser!(u16).range(16..=LONGEST_KEY as i64))]
    pub key_bytes: u16,

    /// Made up, or where a plain list has none: bytes of a value: 400, or one of 100,400,5000, or pareto:LEAST:SHAPE:MOST
    #[arg(long, value_name = "SIZES", default_value = "1000")]
    pub sizes: Sizes,

    /// Made up: the share of sets
    #[arg(long, value_name = "SHARE", default_value_t = 0.0, value_parser = share)]
    pub sets: f64,

    /// Made up: the share of deletes
    #[arg(long, value_name = "SHARE", default_value_t = 0.0, value_parser = share)]
    pub deletes: f64,

    /// Made up: the share of gets that store nothing where they miss; the rest are gets that store what they miss
    #[arg(long, value_name = "SHARE", default_value_t = 0.0, value_parser = share)]
    pub looks: f64,

    /// Made up: the share of requests for a key that is asked for once
    #[arg(long, value_name = "SHARE", default_value_t = 0.0, value_parser = share)]
    pub once: f64,

    /// Made up: after so many requests a scan; 0: never
    #[arg(long, value_name = "COUNT", default_value_t = 0)]
    pub scan_every: u64,

    /// Made up: a scan asks for so many keys
    #[arg(long, value_name = "COUNT", default_value_t = 0)]
    pub scan_keys: u64,

    /// Made up: seconds to live; 0: for good
    #[arg(long, value_name = "SECONDS", default_value_t = 0)]
    pub ttl: u32,

    /// Made up: the same number makes the same requests
    #[arg(long, value_name = "NUMBER", default_value_t = 1)]
    pub seed: u64,
}

fn share(text: &str) -> Result<f64, String> {
    match text.parse::<f64>() {
        Ok(share) if (0.0..=1.0).contains(&share) => Ok(share),
        _ => Err("it is a share from 0 to 1".to_string()),
    }
}

const MADE_UP: u64 = 1_000_000;

/// Mean bytes of keys and of values.
#[derive(Clone, Copy, Debug, PartialEq)]
pub struct Means {
    pub key: u64,
    pub value: u64,
}

// So many requests tell the means.
const LOOKED_AT: u64 = 100_000;

impl Requests {
    /// Whether they can be read more than once.
    #[must_use]
    pub fn can_be_read_again(&self) -> bool {
        // (what isn't there, and a folder, is named as what it is once it is opened)
        let is_file = |path: &Path| path.metadata().map_or(true, |it| it.is_file() || it.is_dir());
        self.trace.as_deref().is_none_or(|path| path != Path::new("-") && is_file(path))
    }

    /// Begins them.
    pub fn open(&self) -> Result<Box<dyn Source>, SourceError> {
        let Some(path) = &self.trace else { return Ok(Box::new(Generated::new(self.load()))) };
        let trace = Trace::open(path, self.form, self.sizes.clone(), self.bad_lines)?;
        Ok(match self.requests {
            Some(count) => Box::new(First::new(trace, count)),
            None => Box::new(trace),
        })
    }

    fn load(&self) -> Load {
        Load {
            law: self.load.clone(),
            keys: self.keys,
            requests: self.requests.unwrap_or(MADE_UP),
            key_bytes: usize::from(self.key_bytes),
            sizes: self.sizes.clone(),
            sets: self.sets,
            deletes: self.deletes,
            looks: self.looks,
            once: self.once,
            scan_every: self.scan_every,
            scan_keys: self.scan_keys,
            ttl: self.ttl,
            seed: self.seed,
        }
    }

    /// Mean bytes of the keys and values of the first 100,000 requests that have any; none, where they can't be read again.
    pub fn means(&self) -> Result<Option<Means>, SourceError> {
        if !self.can_be_read_again() {
            return Ok(None);
        }
        let (mut source, mut request) = (self.open()?, Request::default());
        let (mut count, mut keys, mut values) = (0u64, 0u64, 0u64);
        while count < LOOKED_AT && source.next(&mut request)? {
            if matches!(request.op, Op::Get | Op::Set) {
                count += 1;
                keys += request.key.len() as u64;
                values += request.value as u64;
            }
        }
        Ok((count > 0).then(|| Means { key: keys.div_ceil(count), value: values.div_ceil(count) }))
    }

    /// What they are, in words.
    #[must_use]
    pub fn in_words(&self) -> String {
        let mut words = match &self.trace {
            Some(path) => return path.display().to_string(),
            None => {
                format!("{} of {} keys, values of {}", law_in_words(&self.load), self.keys, sizes_in_words(&self.sizes))
            }
        };
        let shares = [
            ("sets", self.sets),
            ("deletes", self.deletes),
            ("gets alone", self.looks),
            ("keys of one use", self.once),
        ];
        for (name, share) in shares.iter().filter(|(_, share)| *share > 0.0) {
            words += &format!(", {:.1} % {name}", share * 100.0);
        }
        if self.scan_every > 0 {
            words += &format!(", each {} a scan of {}", self.scan_every, self.scan_keys);
        }
        words + &format!(", seed {}", self.seed)
    }
}

fn law_in_words(law: &Law) -> String {
    match law {
        Law::Uniform => "all alike".to_string(),
        Law::Zipf(exponent) => format!("Zipf {exponent}"),
        Law::Hot { keys, requests, moves } => {
            let moved = if *moves > 0 { format!(", another each {moves}") } else { String::new() };
            format!("a hot set ({} % of the keys, {} % of the requests{moved})", keys * 100.0, requests * 100.0)
        }
    }
}

fn sizes_in_words(sizes: &Sizes) -> String {
    match sizes {
        Sizes::List(lengths) => match lengths[..] {
            [length] => Bytes(length as u64).to_string(),
            _ => format!("{lengths:?} bytes"),
        },
        Sizes::Pareto { least, shape, most } => format!("{least} to {most} bytes (Pareto {shape})"),
    }
}
