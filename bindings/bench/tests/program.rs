//! The program itself: its words, its errors, and what it does when it is told to end.
use std::env;
use std::fs;
use std::io::Write;
use std::path::PathBuf;
use std::process::{self, Child, Command, Output, Stdio};
use std::thread;
use std::time::Duration;

fn program(words: &[&str]) -> Command {
    let mut command = Command::new(env!("CARGO_BIN_EXE_kilambosetry-bench"));
    command.args(words).stdin(Stdio::null()).stdout(Stdio::piped()).stderr(Stdio::piped());
    command
}

fn ran(words: &[&str]) -> Output {
    program(words).output().unwrap()
}

fn text(bytes: &[u8]) -> String {
    String::from_utf8_lossy(bytes).into_owned()
}

fn path(name: &str) -> PathBuf {
    env::temp_dir().join(format!("bench-program-{}-{name}", process::id()))
}

// The number behind this name in a line of JSON.
fn number(json: &str, name: &str) -> f64 {
    let at = json.find(&format!("\"{name}\":")).unwrap_or_else(|| panic!("no {name} in {json}")) + name.len() + 3;
    let end = json[at..].find([',', '}']).unwrap();
    json[at..at + end].parse().unwrap()
}

const SMALL: [&str; 7] = ["run", "--requests", "4000", "--keys", "500", "--sizes", "300"];

fn small(words: &[&str]) -> Output {
    ran(&[&SMALL, words].concat())
}

#[test]
fn a_run_tells_a_table_and_writes_json() {
    let file = path("run.json");
    let told = small(&["--memory", "100k", "--sets", "0.1", "--json", file.to_str().unwrap()]);
    assert!(told.status.success(), "{}", text(&told.stderr));
    let table = text(&told.stdout);
    for name in ["requests  4000 in", "% hit (", "misses    absent", "no_flash", "resident", "memory hits", "sets"] {
        assert!(table.contains(name), "no {name} in {table}");
    }
    let json = fs::read_to_string(&file).unwrap();
    fs::remove_file(file).unwrap();
    assert_eq!(number(&json, "requests"), 4000.0);
    let hits = number(&json, "hit_ratio");
    assert!(hits > 0.1 && hits < 0.9 && number(&json, "resident_bytes") > 0.0, "{json}");
}

#[test]
fn a_sweep_has_a_row_for_each_cache_and_more_memory_hits_more() {
    let told = small(&["--memory", "50k,100k,200k", "--json", "-"]);
    assert!(told.status.success(), "{}", text(&told.stderr));
    let json = text(&told.stdout);
    let ratios: Vec<f64> = json.split("\"memory\":").skip(1).map(|case| number(case, "hit_ratio")).collect();
    assert!(ratios.len() == 3 && ratios[0] < ratios[1] && ratios[1] < ratios[2], "{json}");
}

#[test]
fn with_flash_hits_of_both_kinds_are_timed_apart() {
    let folder = path("flash");
    fs::create_dir(&folder).unwrap();
    let words = ["--memory", "100k", "--flash", "2M", "--shards", "1", "--flash-at", folder.to_str().unwrap()];
    let told = small(&[&words[..], &["--warm", "2000", "--keep-up", "--json", "-"]].concat());
    let json = text(&told.stdout);
    assert!(told.status.success(), "{}", text(&told.stderr));
    assert_eq!(number(&json, "requests"), 2000.0); // the others filled it
    let (memory, flash) = (number(&json, "memory_hit_ratio"), number(&json, "flash_hit_ratio"));
    assert!(memory > 0.1 && flash > 0.1 && number(&json, "bytes_written_to_flash") > 0.0, "{json}");
    assert_eq!(fs::read_dir(&folder).unwrap().count(), 0); // the file has no name
    fs::remove_dir(folder).unwrap();
}

#[test]
fn a_rate_is_kept() {
    let told = ran(&["run", "--requests", "100", "--keys", "10", "--pace", "200", "--json", "-"]);
    let json = text(&told.stdout);
    assert!(number(&json, "requests") == 100.0 && number(&json, "seconds") >= 0.49, "{json}");
}

#[test]
fn a_trace_goes_by_its_own_times() {
    let file = path("own");
    fs::write(&file, "0,k,1,9,1,get,0\n0,k,1,9,1,get,0\n100,k,1,9,1,get,0\n").unwrap();
    let own = |words: &[&str]| {
        let told =
            ran(&[&["run", file.to_str().unwrap(), "--form", "twitter", "--json", "-", "--pace"], words].concat());
        let json = text(&told.stdout);
        (number(&json, "requests"), number(&json, "seconds"))
    };
    let (all, behind) = (own(&["own:200"]), own(&["own", "--warm", "2"]));
    fs::remove_file(file).unwrap();
    assert!(all.0 == 3.0 && all.1 >= 0.49, "{all:?}");
    assert!(behind.0 == 1.0 && behind.1 < 60.0, "{behind:?}"); // (what wasn't counted isn't waited for)
}

#[test]
fn errors_have_the_file_and_the_line() {
    let file = path("bad");
    fs::write(&file, "key 5\nkey 6\nkey five\n").unwrap();
    let name = file.to_str().unwrap();
    let told = ran(&["run", name]);
    assert_eq!(
        text(&told.stderr),
        format!("kilambosetry-bench: {name}: line 3: its size is no number, or too large\n")
    );
    assert_eq!(told.status.code(), Some(1));
    let told = ran(&["run", name, "--bad-lines", "0.1"]);
    assert!(
        told.status.success() && text(&told.stdout).contains("lines     3, passed over 1"),
        "{}",
        text(&told.stdout)
    );
    fs::remove_file(file).unwrap();
    let told = ran(&["run", "/"]);
    assert_eq!(text(&told.stderr), "kilambosetry-bench: /: it is a directory\n");
    let told = ran(&["run", "--memory", "1"]);
    assert!(text(&told.stderr).contains("memory is 1, and not"), "{}", text(&told.stderr));
    let told = ran(&["run", "--flash", "10M", "--flash-at", "/nowhere/at/all"]);
    assert!(text(&told.stderr).starts_with("kilambosetry-bench: /nowhere/at/all: "), "{}", text(&told.stderr));
}

// What can't be read is told by name, whatever it was to be read for.
#[test]
fn each_command_tells_what_is_no_file_of_requests() {
    let (empty, folder) = (path("empty"), path("folder"));
    fs::write(&empty, "").unwrap();
    fs::create_dir(&folder).unwrap();
    for command in ["run", "curve", "advise", "beside", "read", "make"] {
        for (file, said) in [(&empty, "it is empty"), (&folder, "it is a directory")] {
            let told = ran(&[command, file.to_str().unwrap()]);
            let wanted = format!("kilambosetry-bench: {}: {said}\n", file.display());
            assert_eq!((told.status.code(), text(&told.stderr)), (Some(1), wanted), "{command}");
        }
    }
    let told = ran(&["advise", "/nowhere/at/all"]);
    assert!(text(&told.stderr).starts_with("kilambosetry-bench: /nowhere/at/all: "), "{}", text(&told.stderr));
    fs::remove_file(empty).unwrap();
    fs::remove_dir(folder).unwrap();
}

#[test]
fn a_line_of_ten_megabytes_and_another_encoding_are_told() {
    let file = path("long");
    fs::write(&file, format!("key 5\n{}\nkey 5\n", "x".repeat(10_000_000))).unwrap();
    let name = file.to_str().unwrap();
    let told = ran(&["run", name]);
    assert_eq!(text(&told.stderr), format!("kilambosetry-bench: {name}: line 2: it has more than 65536 bytes\n"));
    let told = ran(&["run", name, "--bad-lines", "0.01"]);
    assert!(
        told.status.success() && text(&told.stdout).contains("lines     3, passed over 1"),
        "{}",
        text(&told.stdout)
    );
    fs::write(&file, "\u{feff}key 5\n".encode_utf16().flat_map(u16::to_le_bytes).collect::<Vec<u8>>()).unwrap();
    let told = ran(&["curve", name]);
    assert!(text(&told.stderr).contains("it is UTF-16"), "{}", text(&told.stderr));
    fs::remove_file(file).unwrap();
}

// A number of nothing is refused, or there is nothing to tell: none ends the program by a panic.
#[test]
fn zeros_are_refused_or_done() {
    for (words, is_done) in [
        ("run --memory 0", false),
        ("run --flash 1", false),
        ("run --keys 0", false),
        ("run --key-bytes 0", false),
        ("run --threads 0", false),
        ("run --pace 0", false),
        ("run --load zipf:0", false),
        ("run --sizes pareto:0:0:0", false),
        ("curve --sample 0", false),
        ("advise --memory-at-most 0", false),
        ("run --sizes 0 --requests 100", true),
        ("run --shards 0 --requests 100", true), // (as many as memory wants)
        ("run --requests 0", true),
        ("run --requests 10 --warm 100", true),
        ("curve --requests 0", true),
        ("curve --sizes 0 --requests 100", true),
        ("beside --requests 0", true),
        ("make --requests 0", true),
        ("read --requests 0", true),
    ] {
        let told = ran(&words.split(' ').collect::<Vec<_>>());
        let (status, said) = (told.status.code(), text(&told.stderr));
        assert_eq!(status == Some(0), is_done, "{words}: {status:?} {said}");
        assert!(is_done || matches!(status, Some(1 | 2)) && !said.is_empty(), "{words}: {status:?} {said}");
    }
}

// Values of no bytes, and keys and values that are longer than the cache takes, are asked for and counted.
#[test]
fn sizes_that_no_cache_takes_are_counted() {
    let file = path("sizes");
    let long = "k".repeat(300);
    fs::write(&file, format!("a 0\nb 5\n{long} 5\nc 2000000\nb 5\n")).unwrap();
    let told = ran(&["run", file.to_str().unwrap()]);
    fs::remove_file(file).unwrap();
    let table = text(&told.stdout);
    assert!(told.status.success(), "{}", text(&told.stderr));
    for said in ["gets      5: 20.00 % hit", "too long 2", "gets of no size, which store nothing 1"] {
        assert!(table.contains(said), "no {said} in {table}");
    }
}

#[test]
fn what_comes_from_a_pipe_is_put_to_one_cache() {
    let pipe = |words: &[&str]| {
        let mut child = program(words).stdin(Stdio::piped()).spawn().unwrap();
        let _ = child.stdin.take().unwrap().write_all(b"one 5\ntwo 5\none 5\n");
        child.wait_with_output().unwrap()
    };
    let told = pipe(&["run", "-"]);
    assert!(text(&told.stdout).contains("gets      3: 33.33 % hit"), "{}", text(&told.stdout));
    let told = pipe(&["run", "-", "--memory", "1M,2M"]);
    assert!(text(&told.stderr).contains("one cache alone"), "{}", text(&told.stderr));
}

#[test]
fn a_file_is_read_alone() {
    let file = path("read");
    fs::write(&file, "aa 10\nbbbb 30\n").unwrap();
    let told = ran(&["read", file.to_str().unwrap()]);
    fs::remove_file(file).unwrap();
    let said = text(&told.stdout);
    assert!(said.contains("2 requests (2 lines") && said.contains("keys of 3.0 bytes, values of 20.0"), "{said}");
}

fn interrupt(child: &Child) {
    assert!(Command::new("kill").args(["-INT", &child.id().to_string()]).status().unwrap().success());
}

// What Linux tells of the process: a line of its status, in words.
fn status(child: &Child, name: &str) -> String {
    let status = fs::read_to_string(format!("/proc/{}/status", child.id())).unwrap_or_default();
    let line = status.lines().find_map(|line| line.strip_prefix(name));
    line.unwrap_or_default().trim().to_string()
}

// Hundredths of a second that it has computed.
fn computed(child: &Child) -> u64 {
    let stat = fs::read_to_string(format!("/proc/{}/stat", child.id())).unwrap_or_default();
    stat.rsplit(')').next().and_then(|rest| rest.split(' ').nth(12)?.parse().ok()).unwrap_or(0)
}

fn wait_for(what: &str, mut is_so: impl FnMut() -> bool) {
    for _ in 0..6000 {
        if is_so() {
            return;
        }
        thread::sleep(Duration::from_millis(10));
    }
    panic!("never: {what}");
}

// Told to end, the other commands tell what they have too, and that it isn't all.
#[test]
fn ctrl_c_ends_the_other_commands_as_well() {
    for command in ["curve", "beside", "advise"] {
        let child =
            program(&[command, "--requests", "1000000000000", "--keys", "100", "--sizes", "10"]).spawn().unwrap();
        wait_for("it has computed for half a second", || computed(&child) >= 50);
        interrupt(&child);
        let told = child.wait_with_output().unwrap();
        let said = text(&told.stdout);
        assert!(
            told.status.success() && said.contains("ended before its end"),
            "{command}: {said} {}",
            text(&told.stderr)
        );
    }
}

// Told to end amid a run without an end, it tells what it has measured; also where a request isn't due for long.
#[test]
fn ctrl_c_tells_what_was_measured() {
    for pace in ["full", "0.01"] {
        let words =
            ["run", "--requests", "1000000000000", "--keys", "100", "--sizes", "10", "--pace", pace, "--json", "-"];
        let child = program(&words).spawn().unwrap();
        wait_for("its threads run", || {
            let caught = u64::from_str_radix(&status(&child, "SigCgt:"), 16).unwrap_or(0);
            caught & 2 != 0 && status(&child, "Threads:") == "2"
        });
        if pace == "full" {
            wait_for("it has computed for half a second", || computed(&child) >= 50);
        }
        interrupt(&child);
        let told = child.wait_with_output().unwrap();
        let json = text(&told.stdout);
        assert!(told.status.success() && json.contains("\"is_stopped\":true"), "{pace}: {json} {}", text(&told.stderr));
        assert!(number(&json, "requests") > 0.0 || pace != "full", "{json}");
    }
}

#[test]
fn a_page_and_pictures_are_written() {
    let (page, folder) = (path("page.html"), path("pictures"));
    let words = ["--memory", "50k,100k", "--html", page.to_str().unwrap(), "--svg", folder.to_str().unwrap()];
    let told = small(&words);
    assert!(told.status.success(), "{}", text(&told.stderr));
    let html = fs::read_to_string(&page).unwrap();
    let svg = fs::read_to_string(folder.join("hits-by-memory.svg")).unwrap();
    fs::remove_file(page).unwrap();
    fs::remove_dir_all(folder).unwrap();
    assert!(
        html.contains("<h2>All runs</h2>")
            && html.contains("<span>--requests</span> <span>4000</span>")
            && html.contains("<svg"),
        "{html}"
    );
    assert!(svg.starts_with("<svg") && svg.contains("Hits by memory"), "{svg}");
}

// All keys are in the sample, and each is asked for: so all memory that they take hits all but the first gets of each.
#[test]
fn a_curve_goes_up_to_what_all_keys_take() {
    let told = ran(&["curve", "--requests", "4000", "--keys", "500", "--load", "uniform", "--json", "-"]);
    let json = text(&told.stdout);
    let ratios: Vec<f64> = json.split("\"memory\":").skip(1).map(|point| number(point, "hit_ratio")).collect();
    assert!(ratios.len() > 10 && ratios.is_sorted(), "{json}");
    assert!((ratios[ratios.len() - 1] - 0.875).abs() < 0.001, "{json}");
}

// Where all keys fit in a quarter of the memory that there may be, no more is taken; where they don't fit in all of it, flash is.
#[test]
fn advice_takes_flash_where_it_brings_hits_and_no_more_memory_than_needed() {
    let advise = |keys: &str| {
        let words =
            ["advise", "--requests", "8000", "--load", "uniform", "--keys", keys, "--warm", "4000", "--sizes", "300"];
        let limits =
            ["--memory-at-most", "1200k", "--flash-at-most", "4M", "--shards", "1", "--rate", "0.001", "--json", "-"];
        let told = ran(&[&words[..], &limits].concat());
        assert!(told.status.success(), "{}", text(&told.stderr));
        let json = text(&told.stdout);
        let tried: Vec<String> = json.split("\"options\":").skip(1).map(str::to_string).collect();
        tried[number(&json, "chosen") as usize].clone()
    };
    let small = advise("100");
    assert!(number(&small, "flash") == 0.0 && number(&small, "said_bytes") < 900_000.0, "{small}");
    let large = advise("1500");
    assert!(number(&large, "flash") > 0.0 && number(&large, "hit_ratio") > 0.8, "{large}");
    assert!(large.contains("..Options::default() }") && number(&large, "drive_writes_a_day") < 1.0, "{large}");
    let told = ran(&["advise", "--memory-at-most", "1k"]);
    assert!(text(&told.stderr).contains("no cache has as little as 1.0 kB"), "{}", text(&told.stderr));
}

// What was made up and written down is asked for as what was made up.
#[test]
fn requests_are_written_down_and_read_again() {
    let load = ["--requests", "3000", "--keys", "500", "--sets", "0.2", "--deletes", "0.1", "--looks", "0.1"];
    let made = ran(&[&["make", "--a-second", "100"], &load[..]].concat());
    assert!(made.status.success() && text(&made.stdout).lines().count() == 3000);
    let file = path("made");
    fs::write(&file, &made.stdout).unwrap();
    let told =
        |words: &[&str]| text(&ran(&[words, &["--memory", "100k", "--shards", "1", "--json", "-"]].concat()).stdout);
    let of = |json: &str| ["gets", "hit_ratio", "bytes_stored"].map(|name| number(json, name));
    let (direct, read) =
        (told(&[&["run"], &load[..]].concat()), told(&["run", file.to_str().unwrap(), "--form", "twitter"]));
    fs::remove_file(file).unwrap();
    assert_eq!(of(&direct), of(&read));
}

// A memcached on a port that was free just now; it ends with the test.
struct Server(Child, String);

impl Server {
    fn begin() -> Option<Server> {
        let address = std::net::TcpListener::bind("127.0.0.1:0").ok()?.local_addr().ok()?.to_string();
        let port = address.rsplit(':').next()?.to_string();
        let words = ["-l", "127.0.0.1", "-p", &port, "-U", "0", "-m", "64", "-u", "root"];
        let child = Command::new("memcached").args(words).stderr(Stdio::null()).spawn().ok()?;
        let server = Server(child, address);
        wait_for("memcached answers", || std::net::TcpStream::connect(&server.1).is_ok());
        Some(server)
    }
}

impl Drop for Server {
    fn drop(&mut self) {
        let _ = self.0.kill();
        let _ = self.0.wait();
    }
}

// Where all fits, each cache hits all but the first get of each key and the gets behind deletes; so all three agree.
#[test]
fn other_caches_answer_the_same_requests() {
    let words =
        ["beside", "--requests", "5000", "--keys", "400", "--sizes", "300", "--sets", "0.1", "--deletes", "0.05"];
    let server = Server::begin();
    let memcached: Vec<&str> = server.iter().flat_map(|server| ["--memcached", &server.1]).collect();
    let told = ran(&[&words[..], &memcached, &["--json", "-"]].concat());
    assert!(told.status.success(), "{}", text(&told.stderr));
    let json = text(&told.stdout);
    let caches: Vec<[f64; 3]> = json
        .split("\"cache\":")
        .skip(1)
        .map(|it| ["requests", "refused", "hit_ratio"].map(|name| number(it, name)))
        .collect();
    assert_eq!(caches.len(), if server.is_some() { 3 } else { 2 }, "{json}");
    assert!(caches.iter().all(|cache| *cache == caches[0]) && caches[0][..2] == [5000.0, 0.0], "{json}");
    // where it doesn't, what is evicted is the same
    let told = ran(&[&words[..], &["--memory", "100k", "--shards", "1", "--json", "-"]].concat());
    let json = text(&told.stdout);
    let ratios: Vec<f64> = json.split("\"cache\":").skip(1).map(|it| number(it, "hit_ratio")).collect();
    assert!((ratios[0] - ratios[1]).abs() < 0.01 && ratios[0] < 0.9, "{ratios:?}");
    let told = ran(&[&words[..], &["--memcached", "127.0.0.1:1"]].concat());
    assert!(text(&told.stderr).contains("127.0.0.1:1: "), "{}", text(&told.stderr));
}
