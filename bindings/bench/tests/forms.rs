//! Files in the forms that are published, and what is no such file.
use kilambosetry_bench::errors::{BadLine, SourceError};
use kilambosetry_bench::forms::Form;
use kilambosetry_bench::request::{Op, Passed, Request, Source};
use kilambosetry_bench::trace::Trace;
use kilambosetry_bench::unpack::Opened;
use std::env;
use std::fs;
use std::io::{Cursor, Write};
use std::path::{Path, PathBuf};
use std::process::{self, Command, Stdio};
use std::time::Duration;

const TWITTER: &str = "\
0,ab:12,5,100,1,get,0
0,nz:u:eeW511W3dcH3de3d15ec,22,304,2,gets,0
1,plain,9,0,2,get,0
1,a,b,3,77,3,set,86400
2,ab:12,5,100,1,add,60
2,ab:12,5,120,1,replace,60
3,ab:12,5,120,1,cas,60
4,ab:12,5,9,1,incr,0
7,ab:12,5,0,1,delete,0
7,ab:12,5,100,1,get,0
";

const KVCACHE: &str = "\
op_time,key,key_size,op,op_count,size,cache_hits,ttl
10,1001,40,GET,1,500,0,3600
10,1002,40,GET,3,200,0,0
11,1001,40,SET,1,510,0,3600
12,1003,4,GET_LEASE,1,0,0,0
12,1003,4,SET_LEASE,1,90,0,0
13,1001,40,DELETE,1,0,0,0
14,1001,40,GET,1,500,1,0
15,1002,40,GET,1,200,1,0
16,1004,30,GET,0,10,0,0
";

const PLAIN: &str = "\
# a comment
one 100
two,200
three\t300

four
 five   500
one 100
\u{fc}nicode 1
seven,0
";

fn trace(text: impl AsRef<[u8]>, form: Form, may_be_bad: f64) -> Result<Trace, SourceError> {
    let opened = Opened { input: Box::new(Cursor::new(text.as_ref().to_vec())), length: None };
    Trace::of("it", opened, form, "1000".parse().unwrap(), may_be_bad)
}

fn all(mut trace: impl Source) -> Result<(Vec<Request>, Passed), SourceError> {
    let (mut request, mut all) = (Request::default(), Vec::new());
    while trace.next(&mut request)? {
        all.push(request.clone());
    }
    Ok((all, trace.passed()))
}

fn read(text: impl AsRef<[u8]>, form: Form) -> (Vec<Request>, Passed) {
    all(trace(text, form, 0.0).unwrap()).unwrap()
}

fn request(op: Op, key: &str, value: usize, ttl: u32, at: u64) -> Request {
    Request { op, key: key.as_bytes().to_vec(), value, ttl, at: Duration::from_secs(at) }
}

#[test]
fn twitters_form() {
    let (requests, passed) = read(TWITTER, Form::Twitter);
    let wanted = [
        request(Op::Get, "ab:12", 100, 0, 0),
        request(Op::Get, "nz:u:eeW511W3dcH3de3d15ec", 304, 0, 0),
        request(Op::Look, "plain....", 0, 0, 1), // its length before its letters were exchanged; of no size
        request(Op::Set, "a,b", 77, 86400, 1),   // a key may have commas
        request(Op::Set, "ab:12", 100, 60, 2),
        request(Op::Set, "ab:12", 120, 60, 2),
        request(Op::Set, "ab:12", 120, 60, 3),
        request(Op::Set, "ab:12", 9, 0, 4),
        request(Op::Delete, "ab:12", 0, 0, 7),
        request(Op::Get, "ab:12", 100, 0, 7),
    ];
    assert_eq!(requests, wanted);
    assert_eq!(passed, Passed { lines: 10, bad: 0, unsized_gets: 1 });
}

#[test]
fn metas_form() {
    let (requests, passed) = read(KVCACHE, Form::Kvcache);
    let long = |key: &str| format!("{key:.<40}");
    let wanted = [
        request(Op::Get, &long("1001"), 500, 3600, 0),
        request(Op::Get, &long("1002"), 200, 0, 0),
        request(Op::Get, &long("1002"), 200, 0, 0), // op_count
        request(Op::Get, &long("1002"), 200, 0, 0),
        request(Op::Set, &long("1001"), 510, 3600, 1),
        request(Op::Look, "1003", 0, 0, 2),
        request(Op::Set, "1003", 90, 0, 2),
        request(Op::Delete, &long("1001"), 0, 0, 3),
        request(Op::Get, &long("1001"), 500, 0, 4),
        request(Op::Get, &long("1002"), 200, 0, 5),
        request(Op::Get, &format!("{:.<30}", "1004"), 10, 0, 6),
    ];
    assert_eq!(requests, wanted);
    assert_eq!(passed, Passed { lines: 10, bad: 0, unsized_gets: 1 });
}

// The older ones have other columns, in another order.
#[test]
fn metas_older_form() {
    let (requests, _) = read("key,op,size,op_count,key_size\nk1,GET,7,2,2\nk2,SET,8,1,2\n", Form::Kvcache);
    let get = request(Op::Get, "k1", 7, 0, 0);
    assert_eq!(requests, [get.clone(), get, request(Op::Set, "k2", 8, 0, 0)]);
    let wrong = trace("key,op\nk1,GET\n", Form::Kvcache, 1.0).err().unwrap();
    assert_eq!(wrong.to_string(), "it: line 1: the head has no column size");
}

#[test]
fn a_plain_list() {
    let (requests, passed) = read(PLAIN, Form::Plain);
    let get = |key, value| request(Op::Get, key, value, 0, 0);
    let first = [get("one", 100), get("two", 200), get("three", 300), get("four", 1000), get("five", 500)];
    assert_eq!(requests[..5], first);
    assert_eq!(requests[5..], [get("one", 100), get("\u{fc}nicode", 1), request(Op::Look, "seven", 0, 0, 0)]);
    assert_eq!(passed, Passed { lines: 10, bad: 0, unsized_gets: 1 });
}

#[test]
fn a_line_that_isnt_of_the_form_is_told_with_its_number() {
    for (line, form, why) in [
        ("1,k,1,1,get,0", Form::Twitter, BadLine::Fields { found: 6, wanted: 7 }),
        ("x,k,1,1,1,get,0", Form::Twitter, BadLine::Number("time")),
        ("1,k,1,-1,1,get,0", Form::Twitter, BadLine::Number("value size")),
        ("1,k,1,9999999999,1,get,0", Form::Twitter, BadLine::Number("value size")),
        ("1,k,1,1,1,steal,0", Form::Twitter, BadLine::Operation),
        ("1,,0,1,1,get,0", Form::Twitter, BadLine::NoKey),
        ("1,k,1,1,1,get,x", Form::Twitter, BadLine::Number("TTL")),
        ("key 1 2 3", Form::Plain, BadLine::Fields { found: 4, wanted: 2 }),
        ("key many", Form::Plain, BadLine::Number("size")),
        ("k\0e\0y\0", Form::Plain, BadLine::Zero),
        ("5,k,1", Form::Kvcache, BadLine::Fields { found: 3, wanted: 8 }),
        ("5,k,1,STEAL,1,1,0,0", Form::Kvcache, BadLine::Operation),
    ] {
        let (good, number) = match form {
            Form::Twitter => ("0,k,1,1,1,get,0\n", 2),
            Form::Kvcache => ("op_time,key,key_size,op,op_count,size,cache_hits,ttl\n", 2),
            Form::Plain => ("key 1\n", 2),
        };
        let error = all(trace(format!("{good}{line}\n"), form, 0.0).unwrap()).unwrap_err();
        match error {
            SourceError::Line { number: found, why: told, .. } => assert_eq!((found, told), (number, why), "{line}"),
            other => panic!("{line}: {other}"),
        }
    }
}

// One in ten is bad: a fifth of them may be, a twentieth not, and the error says which was too many.
#[test]
fn a_share_of_bad_lines_is_passed_over_and_counted() {
    let text: String = (0..5000).map(|i| if i % 10 == 9 { "bad bad bad\n" } else { "key 5\n" }).collect();
    let (requests, passed) = all(trace(&text, Form::Plain, 0.2).unwrap()).unwrap();
    assert_eq!((requests.len(), passed), (4500, Passed { lines: 5000, bad: 500, unsized_gets: 0 }));
    let error = all(trace(&text, Form::Plain, 0.05).unwrap()).unwrap_err();
    assert!(matches!(error, SourceError::Line { number: 510, bad: 51, .. }), "{error}");
}

#[test]
fn a_line_of_ten_megabytes_is_a_bad_one() {
    let mut text = b"key 5\n".to_vec();
    text.resize(10_000_000, b'x');
    text.extend_from_slice(b"\nkey 5\n");
    let error = all(trace(&text, Form::Plain, 0.0).unwrap()).unwrap_err();
    assert_eq!(error.to_string(), "it: line 2: it has more than 65536 bytes");
    let (requests, passed) = all(trace(&text, Form::Plain, 0.01).unwrap()).unwrap();
    assert_eq!((requests.len(), passed.bad), (2, 1));
}

#[test]
fn what_is_no_file_of_requests_is_told_by_name() {
    let message = |text: &[u8], form| {
        let read = trace(text, form, 0.0).and_then(all);
        read.err().map(|error| error.to_string()).unwrap_or_default()
    };
    assert_eq!(message(b"", Form::Plain), "it: it is empty");
    assert_eq!(message(b"\n\n# nothing\n", Form::Plain), "it: it is empty");
    assert_eq!(message(b"\xFF\xFEk\0", Form::Twitter), "it: it is UTF-16, and not UTF-8 or ASCII");
    let open = |path: &Path| Trace::open(path, Form::Plain, "1".parse().unwrap(), 0.0).err().unwrap();
    assert!(matches!(open(&env::temp_dir()), SourceError::Directory { .. }));
    assert!(matches!(open(Path::new("/nowhere/at/all")), SourceError::Io { .. }));
}

fn file(name: &str, bytes: &[u8]) -> PathBuf {
    let path = env::temp_dir().join(format!("bench-{}-{name}", process::id()));
    fs::write(&path, bytes).unwrap();
    path
}

// What this program makes of the bytes; none, where there is no such program.
fn packed(program: &str, bytes: &[u8]) -> Option<Vec<u8>> {
    let child = Command::new(program).arg("-c").stdin(Stdio::piped()).stdout(Stdio::piped()).spawn();
    let mut child = child.ok()?;
    child.stdin.take()?.write_all(bytes).ok()?;
    Some(child.wait_with_output().ok()?.stdout)
}

#[test]
fn packed_files_are_unpacked_and_damaged_ones_told() {
    for program in ["gzip", "zstd"] {
        let Some(packed) = packed(program, TWITTER.as_bytes()) else {
            println!("skipped: no {program}");
            continue;
        };
        let open = |path: &Path| all(Trace::open(path, Form::Twitter, "1".parse().unwrap(), 0.0)?);
        let whole = file(&format!("whole.{program}"), &packed);
        assert_eq!(open(&whole).unwrap(), read(TWITTER, Form::Twitter));
        let damaged = file(&format!("damaged.{program}"), &packed[..packed.len() / 2]);
        let error = open(&damaged).unwrap_err().to_string();
        assert!(error.contains(program), "{error}");
        fs::remove_file(whole).unwrap();
        fs::remove_file(damaged).unwrap();
    }
}
