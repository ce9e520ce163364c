//! What a line of a meta command asks for: its key, and its flags.
use crate::bars::LONGEST;
use crate::base64;
use crate::parse::{length_of, signed32, unsigned32, unsigned64, LONGEST_KEY};
use crate::request::{Fault, BAD_FORMAT};
use std::borrow::Cow;

// The most words of a meta command, and the longest opaque, with its flag.
const MOST_WORDS: usize = 19;
const LONGEST_OPAQUE: usize = 32;

const BAD_TOKEN: &str = "CLIENT_ERROR bad token in command line format";
const BAD_FLAG: &str = "CLIENT_ERROR invalid or duplicate flag";

/// The meta commands.
#[derive(Clone, Copy, Debug, PartialEq, Eq)]
pub enum Verb {
    Get,
    /// A value of this length comes behind the line.
    Set {
        length: usize,
    },
    Delete,
    Arithmetic,
    Debug,
    NoOp,
}

/// A meta command.
#[derive(Clone, Debug)]
pub struct Meta<'a> {
    pub verb: Verb,
    pub key: Cow<'a, [u8]>,
    pub flags: Flags<'a>,
}

/// The flags of a meta command.
#[derive(Clone, Debug, Default)]
pub struct Flags<'a> {
    // as they were given
    given: Vec<&'a [u8]>,
    /// N: where there is no item, one is made that ends at this time.
    pub vivify: Option<i32>,
    /// T: the item ends at this time.
    pub time: Option<i32>,
    /// R: who finds that the item ends before this time is to store it anew.
    pub recache: Option<i32>,
    /// C: the item's unique must be this one.
    pub unique: Option<u64>,
    /// M: how it is stored, or counted.
    pub mode: Option<u8>,
    /// F: the client's own number.
    pub client_flags: u32,
    /// J: what counting begins with.
    pub initial: u64,
    /// D: what is added, or taken away; of a delete, the number of the bar that it ends.
    pub delta: Option<u64>,
    /// B: the seconds for which a bar is set.
    pub bar: Option<u32>,
}

impl<'a> Flags<'a> {
    /// Whether this flag was given.
    #[must_use]
    pub fn has(&self, flag: u8) -> bool {
        self.given.iter().any(|word| word[0] == flag)
    }

    /// The flags in their order.
    #[must_use]
    pub fn given(&self) -> &[&'a [u8]] {
        &self.given
    }

    #[must_use]
    pub fn is_binary(&self) -> bool {
        self.has(b'b')
    }

    #[must_use]
    pub fn is_quiet(&self) -> bool {
        self.has(b'q')
    }

    // Reads the flags, and the key that they may say is in base64. What is wrong is told once all are read, but for a flag that isn't
    // known or comes twice.
    fn read(key: &mut Cow<'a, [u8]>, given: &[&'a [u8]]) -> Result<Flags<'a>, &'static str> {
        let mut flags = Flags { given: Vec::with_capacity(given.len()), ..Flags::default() };
        let mut wrong = None;
        for word in given {
            if word[0] >= 127 || flags.has(word[0]) {
                return Err("CLIENT_ERROR duplicate flag");
            }
            flags.given.push(word);
            let found = match word[0] {
                b'b' => decode(key),
                flag => flags.take(flag, &word[1..])?,
            };
            // (of the client's flags memcached says no more than what was wrong before)
            wrong = if found == Some(BAD_FORMAT) { wrong.or(found) } else { found.or(wrong) };
        }
        wrong.map_or(Ok(flags), Err)
    }

    // Takes a flag over, and answers what is wrong with its token.
    fn take(&mut self, flag: u8, token: &[u8]) -> Result<Option<&'static str>, &'static str> {
        let wrong = match flag {
            b'N' => kept(&mut self.vivify, signed32(token), BAD_TOKEN),
            b'T' => kept(&mut self.time, signed32(token), BAD_TOKEN),
            b'R' => kept(&mut self.recache, signed32(token), BAD_TOKEN),
            b'C' => kept(&mut self.unique, unsigned64(token), BAD_TOKEN),
            b'D' => kept(&mut self.delta, unsigned64(token), "CLIENT_ERROR invalid numeric delta value"),
            b'J' => {
                let mut initial = None;
                let wrong = kept(&mut initial, unsigned64(token), "CLIENT_ERROR invalid numeric initial value");
                self.initial = initial.unwrap_or_default();
                wrong
            }
            b'B' => kept(&mut self.bar, unsigned32(token).filter(|it| (1..=LONGEST).contains(it)), BAD_TOKEN),
            b'F' => {
                self.client_flags = unsigned32(token).unwrap_or_default();
                unsigned32(token).is_none().then_some(BAD_FORMAT)
            }
            b'M' => {
                let mode = (token.len() == 1).then(|| token[0]);
                kept(&mut self.mode, mode, "CLIENT_ERROR incorrect length for M token")
            }
            b'c' | b'f' | b'h' | b'k' | b'l' | b'q' | b's' | b't' | b'u' | b'v' | b'I' | b'L' | b'O' | b'P' => None,
            _ => return Err("CLIENT_ERROR invalid flag"),
        };
        Ok(wrong)
    }

    fn has_long_opaque(&self) -> bool {
        self.given.iter().any(|word| word[0] == b'O' && word.len() > LONGEST_OPAQUE)
    }
}

// Keeps what was read, or says what is wrong.
fn kept<T>(place: &mut Option<T>, read: Option<T>, wrong: &'static str) -> Option<&'static str> {
    let is_wrong = read.is_none();
    *place = read;
    is_wrong.then_some(wrong)
}

/// What a line of a meta command asks for.
pub fn parsed<'a>(words: &[&'a [u8]]) -> Result<Meta<'a>, Fault> {
    match words[0] {
        b"mg" => {
            let meta = plain(Verb::Get, words, "CLIENT_ERROR options flags are too long", None)?;
            checked(meta, &[])
        }
        b"md" => {
            let meta = plain(Verb::Delete, words, "CLIENT_ERROR options flags too long", Some(BAD_FLAG))?;
            checked(meta, &[])
        }
        b"ma" => {
            let meta = plain(Verb::Arithmetic, words, "CLIENT_ERROR options flags too long", Some(BAD_FLAG))?;
            checked(meta, b"ID+-")
        }
        b"ms" => set(words),
        b"me" => debug(words),
        b"mn" => Ok(Meta { verb: Verb::NoOp, key: Cow::default(), flags: Flags::default() }),
        _ => Err(Fault::of("ERROR")),
    }
}

// The key of a command whose words aren't too many.
fn key_of<'a>(words: &[&'a [u8]], too_many: &'static str) -> Result<&'a [u8], Fault> {
    match words {
        [_] => Err(Fault::of("ERROR")),
        [_, key, ..] if key.len() > LONGEST_KEY => Err(Fault::of(BAD_FORMAT)),
        _ if words.len() > MOST_WORDS => Err(Fault::of(too_many)),
        words => Ok(words[1]),
    }
}

// A command whose flags follow its key. Where its flags are wrong, a command may say no more than that.
fn plain<'a>(
    verb: Verb,
    words: &[&'a [u8]],
    too_many: &'static str,
    wrong: Option<&'static str>,
) -> Result<Meta<'a>, Fault> {
    let key = key_of(words, too_many)?;
    with_flags(verb, key, &words[2..]).map_err(|text| Fault::of(wrong.unwrap_or(text)))
}

fn with_flags<'a>(verb: Verb, key: &'a [u8], given: &[&'a [u8]]) -> Result<Meta<'a>, &'static str> {
    let mut key = Cow::Borrowed(key);
    let flags = Flags::read(&mut key, given)?;
    if flags.bar.is_some() && (verb != Verb::Delete || flags.delta.is_some()) {
        return Err("CLIENT_ERROR invalid flag");
    }
    Ok(Meta { verb, key, flags })
}

// Takes the bytes of a key for its digits, or says what is wrong with them.
fn decode(key: &mut Cow<'_, [u8]>) -> Option<&'static str> {
    match base64::decoded(key) {
        Some(decoded) => {
            *key = Cow::Owned(decoded);
            None
        }
        None => Some("CLIENT_ERROR error decoding key"),
    }
}

// Looks at what comes behind the flags' own syntax.
fn checked<'a>(meta: Meta<'a>, modes: &[u8]) -> Result<Meta<'a>, Fault> {
    let is_known = modes.is_empty() || meta.flags.mode.is_none_or(|mode| modes.contains(&mode));
    match meta.verb {
        Verb::Set { .. } if !is_known => Err(Fault::of("CLIENT_ERROR invalid mode for ms M token")),
        _ if !is_known => Err(Fault::of("CLIENT_ERROR invalid mode for ma M token")),
        _ if meta.flags.has_long_opaque() => Err(Fault::of("CLIENT_ERROR opaque token too long")),
        _ => Ok(meta),
    }
}

// (its value is passed over where its flags are wrong, and only then)
fn set<'a>(words: &[&'a [u8]]) -> Result<Meta<'a>, Fault> {
    if words.len() == 2 {
        return Err(Fault::of(BAD_FORMAT));
    }
    let key = key_of(words, "CLIENT_ERROR options flags too long")?;
    let length = length_of(words[2]).ok_or(Fault::of(BAD_FORMAT))?;
    let meta = with_flags(Verb::Set { length }, key, &words[3..]).map_err(Fault::of);
    let fault = |fault: Fault| Fault { value: Some(length), ..fault };
    meta.and_then(|meta| checked(meta, b"EAPRS")).map_err(fault)
}

fn debug<'a>(words: &[&'a [u8]]) -> Result<Meta<'a>, Fault> {
    match words {
        [_, key, ..] if key.len() <= LONGEST_KEY => {
            let given: &[&[u8]] = if words.get(2) == Some(&b"b".as_slice()) { &[b"b"] } else { &[] };
            with_flags(Verb::Debug, key, given).map_err(|_| Fault::of(BAD_FORMAT))
        }
        _ => Err(Fault::of(BAD_FORMAT)),
    }
}

#[cfg(test)]
mod tests {
    use super::*;
    use crate::parse::Words;

    fn meta(line: &str) -> Result<Meta<'_>, Fault> {
        parsed(Words::of(line.as_bytes()).all())
    }

    fn fault(line: &str) -> &'static str {
        meta(line).unwrap_err().text
    }

    #[test]
    fn flags_have_tokens() {
        let get = meta("mg key N30 T-1 R5 c t v Oabc").unwrap();
        assert_eq!((get.flags.vivify, get.flags.time, get.flags.recache), (Some(30), Some(-1), Some(5)));
        assert!(get.flags.has(b'v') && !get.flags.has(b'q'));
        let set = meta("ms Zm9v 5 b C7 F9 ME T60 I").unwrap();
        assert_eq!((set.verb, &*set.key), (Verb::Set { length: 5 }, b"foo".as_slice()));
        assert_eq!((set.flags.unique, set.flags.client_flags, set.flags.mode), (Some(7), 9, Some(b'E')));
        let count = meta("ma key J13 D7 N0 M-").unwrap();
        assert_eq!((count.flags.initial, count.flags.delta, count.flags.mode), (13, Some(7), Some(b'-')));
    }

    #[test]
    fn faults_are_told_in_the_words_of_memcached() {
        assert_eq!(fault("mg"), "ERROR");
        assert_eq!(fault("mg key v v"), "CLIENT_ERROR duplicate flag");
        assert_eq!(fault("mg key !"), "CLIENT_ERROR invalid flag");
        assert_eq!(fault("mg key Nx"), BAD_TOKEN);
        assert_eq!(fault("mg key Nx Fx"), BAD_TOKEN);
        assert_eq!(fault("mg key Fx"), BAD_FORMAT);
        assert_eq!(fault("mg Zg b"), "CLIENT_ERROR error decoding key");
        assert_eq!(fault("mg Zg Nx b"), "CLIENT_ERROR error decoding key");
        assert_eq!(fault("mg Zg b Nx"), BAD_TOKEN);
        assert_eq!(fault(&format!("mg key O{}", "x".repeat(32))), "CLIENT_ERROR opaque token too long");
        assert_eq!(fault(&format!("mg {}", "k".repeat(251))), BAD_FORMAT);
        assert_eq!(fault("md key v v"), BAD_FLAG);
        assert_eq!(fault("ma key Dx"), BAD_FLAG);
        assert_eq!(fault("ma key MX"), "CLIENT_ERROR invalid mode for ma M token");
        assert_eq!(fault("me"), BAD_FORMAT);
        assert_eq!(fault(&format!("mg key{}", " v".repeat(18))), "CLIENT_ERROR options flags are too long");
    }

    #[test]
    fn a_value_is_passed_over_where_flags_are_wrong() {
        assert_eq!(meta("ms key 5 v v").unwrap_err().value, Some(5));
        assert_eq!(meta("ms key 5 MX").unwrap_err().value, Some(5));
        assert_eq!(meta("ms key x").unwrap_err().value, None);
        assert_eq!(meta("ms key").unwrap_err().value, None);
        assert_eq!(fault("ms"), "ERROR");
    }
}
