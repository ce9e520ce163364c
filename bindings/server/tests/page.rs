//! The page for the eye: what it shows, and who asks for it badly.
mod support;

use kilambosetryd::listen::{Running, Sockets};
use kilambosetryd::page;
use std::io::{Read, Write};
use std::net::{TcpListener, TcpStream};
use std::thread;
use std::time::{Duration, Instant};
use support::{config, fill, in_memory, over, wait_until, waiting, Client, Hanging};

const WORDS: [&str; 2] = ["--metrics-port", "1"]; // (the tests' servers take any port)

fn connected(running: &Running) -> TcpStream {
    let stream = TcpStream::connect(running.pages.unwrap()).unwrap();
    stream.set_read_timeout(Some(Duration::from_secs(30))).unwrap();
    stream
}

// What the server answers to this request: its head, and the page.
fn answer(running: &Running, request: &str) -> (String, String) {
    let mut stream = connected(running);
    stream.write_all(request.as_bytes()).unwrap();
    let mut text = String::new();
    stream.read_to_string(&mut text).unwrap();
    let (head, page) = text.split_once("\r\n\r\n").unwrap();
    (head.to_string(), page.to_string())
}

fn page_of(running: &Running, path: &str) -> String {
    let (head, page) = answer(running, &format!("GET {path} HTTP/1.1\r\nHost: x\r\n\r\n"));
    assert!(head.starts_with("HTTP/1.1 200 OK\r\n") && head.contains("text/html; charset=utf-8"), "{head}");
    assert!(head.contains(&format!("Content-Length: {}\r\n", page.len())), "{head}");
    page
}

// The cells of a row of a table.
fn row(page: &str, name: &str) -> Vec<String> {
    let begin = format!("<tr><td>{name}</td>");
    let at = page.find(&begin).unwrap_or_else(|| panic!("no {name} in {page}")) + begin.len();
    let row = &page[at..at + page[at..].find("</tr>").unwrap()];
    row.split("</td>").map(|cell| cell.trim_start_matches("<td>").to_string()).filter(|cell| !cell.is_empty()).collect()
}

fn samples(running: &Running) -> usize {
    running.server.history.show(|samples, _| samples.len())
}

// Waits for the sample that the server takes as it starts.
fn started(running: &Running) {
    wait_until(|| samples(running) == 1);
}

#[test]
fn prometheus_and_stats_are_told_how_long_things_took() {
    let running = in_memory(&WORDS);
    let mut client = Client::of(&running);
    for _ in 0..400 {
        assert_eq!(client.ask("set key 0 0 1\r\nx\r\n"), "STORED");
        assert_eq!(client.ask("mg key\r\n"), "HD");
    }
    let (_, page) = answer(&running, "GET /metrics HTTP/1.1\r\nHost: x\r\n\r\n");
    let sample = |name: &str| -> u64 {
        let line =
            page.lines().find_map(|line| line.strip_prefix(name)).unwrap_or_else(|| panic!("no {name} in {page}"));
        line.trim().parse().unwrap()
    };
    for name in [
        "kilambosetryd_command_seconds_count{kind=\"stores\"}",
        "kilambosetryd_command_seconds_bucket{kind=\"stores\",le=\"+Inf\"}",
    ] {
        assert!((5..100).contains(&sample(name)), "{name} {}", sample(name));
    }
    assert_eq!(sample("kilambosetry_device_read_seconds_count"), 0);
    assert!(page.contains("# TYPE kilambosetry_waiting_get_seconds histogram\n"), "{page}");
    assert!(stats(&running).contains("STAT waiting_get_p99_us 0\r\n"));
    assert!(running.stop());
    assert!(!stats(&in_memory(&[])).contains("p99_us"));
}

fn stats(running: &Running) -> String {
    let mut stream = TcpStream::connect(running.address).unwrap();
    stream.write_all(b"stats\r\nquit\r\n").unwrap();
    let mut text = String::new();
    stream.read_to_string(&mut text).unwrap();
    text
}

#[test]
fn a_server_that_has_just_started_says_that_it_has_no_pictures_yet() {
    let running = in_memory(&WORDS);
    started(&running);
    assert_eq!(Client::of(&running).ask("set key 0 0 1\r\nx\r\n"), "STORED");
    let page = page_of(&running, "/");
    assert!(page.contains("There is no picture yet") && !page.contains("<svg"), "{page}");
    assert_eq!(row(&page, "values to be stored"), ["0", "1"]);
    assert!(page.contains("memory 0 % filled") && page.contains(", 1 items") && !page.contains("flash"), "{page}");
    assert!(running.stop());
}

#[test]
fn what_was_asked_for_is_shown() {
    let running = in_memory(&WORDS);
    started(&running);
    let mut client = Client::of(&running);
    for number in 0..300 {
        assert_eq!(client.ask(&format!("set key{number} 0 0 1\r\nx\r\n")), "STORED");
        assert!(client.value(&format!("key{number}")).is_some() && client.value(&format!("none{number}")).is_none());
    }
    assert_eq!(client.ask("delete key0\r\n"), "DELETED");
    running.server.note();
    let page = page_of(&running, "/");
    for title in ["Hits, of all gets", "Commands a second", "How long gets take", "Misses a second, absent"] {
        assert!(page.contains(title), "no {title} in {page}");
    }
    assert_eq!(row(&page, "gets that hit"), ["300", "300"]);
    assert_eq!(row(&page, "gets that missed"), ["300", "300"]);
    assert_eq!(row(&page, "deletes"), ["1", "1"]);
    assert_eq!(row(&page, "absent"), ["300", "300"]);
    let timed: u64 = row(&page, "gets answered at once")[0].parse().unwrap();
    assert!((10..200).contains(&timed), "{timed} of 600");
    // the count that was set to 0 begins anew, and what came before stays in the hour
    assert_eq!(client.ask("stats reset\r\n"), "RESET");
    assert!(client.value("key1").is_some());
    running.server.note();
    assert_eq!(row(&page_of(&running, "/"), "gets that hit"), ["301", "1"]);
    assert!(running.stop());
}

// No script, nothing from elsewhere, and loaded anew only where that is asked for.
#[test]
fn it_is_one_text_that_stands_still() {
    let running = in_memory(&WORDS);
    started(&running);
    running.server.note();
    let page = page_of(&running, "/");
    let pictures = page.matches("<svg").count();
    assert!(
        pictures >= 4 && page.matches("http").count() == pictures,
        "each has the name of SVG, and nothing else: {page}"
    );
    for without in ["<script", "url(", "<img", "<link", "http-equiv"] {
        assert!(!page.contains(without), "{without} in {page}");
    }
    assert!(
        page.contains("prefers-color-scheme:dark") && page.contains("tabindex=\"0\"") && page.contains("lang=\"en\"")
    );
    assert!(page_of(&running, "/?every=10").contains("<meta http-equiv=\"refresh\" content=\"10\">"));
    for query in ["/?every=1", "/?", "/?every=10&every=10"] {
        assert!(!page_of(&running, query).contains("http-equiv"), "{query}");
    }
    assert!(running.stop());
}

#[test]
fn a_name_is_written_as_text() {
    let running = in_memory(&["--metrics-port", "1", "--port", "0", "--unix", "/tmp/<b>"]);
    let page = page::html(&running.server, false).unwrap();
    assert!(page.contains("<h1>kilambosetryd on /tmp/&lt;b&gt;</h1>"), "{page}");
    assert!(running.stop());
}

#[test]
fn flash_has_its_pictures_and_a_page_is_answered_while_it_hangs() {
    let device = Hanging::default();
    let running = over(&device, &["--threads", "1", "--flash-wait", "60000", "--metrics-port", "1"]);
    started(&running);
    fill(&running, 400);
    let mut client = Client::of(&running);
    for key in 0..400 {
        client.value(&format!("key{key}"));
    }
    running.server.note();
    let page = page_of(&running, "/");
    for title in ["Bytes of flash a second", "Memory and flash that are filled", "in memory", "<meter"] {
        assert!(page.contains(title), "no {title} in {page}");
    }
    let written = row(&page, "pages written");
    assert!(written[0] == written[1] && written[0] != "0", "{written:?}");
    let (waits, _) = waiting(&running, &device);
    running.server.note();
    assert_eq!(row(&page_of(&running, "/"), "gets that waited").len(), 5);
    device.hang(false);
    drop(waits);
    assert!(running.stop());
}

#[test]
fn other_requests_are_refused_or_have_the_head_alone() {
    let running = in_memory(&WORDS);
    let (head, page) = answer(&running, "HEAD / HTTP/1.1\r\n\r\n");
    assert!(head.starts_with("HTTP/1.1 200 OK") && head.contains("Content-Length: ") && page.is_empty(), "{head}");
    for request in
        ["POST / HTTP/1.1\r\n\r\n", "GET /other HTTP/1.1\r\n\r\n", "\r\n\r\n", "GET\r\n\r\n", "\0\u{1}\r\n\r\n"]
    {
        let (head, page) = answer(&running, request);
        assert!(head.starts_with("HTTP/1.1 404 ") && page == "The pages are / and /metrics\n", "{request:?}: {head}");
    }
    assert!(running.stop());
}

#[test]
fn who_sends_half_a_request_or_reads_nothing_keeps_nobody_out() {
    let running = in_memory(&WORDS);
    started(&running);
    let begun = Instant::now();
    let mut slow = Vec::new();
    for number in 0..60 {
        let mut stream = connected(&running);
        let request: &[u8] = if number % 2 == 0 { b"GET / HT" } else { b"GET / HTTP/1.1\r\n\r\n" };
        let _ = stream.write_all(request); // (the first of so many are closed)
        slow.push(stream);
    }
    assert!(page_of(&running, "/").contains("There is no picture yet"));
    assert!(begun.elapsed() < Duration::from_secs(4), "it waited for who says nothing");
    // half a request, whose rest comes later
    let mut late = connected(&running);
    for piece in ["GE", "T / HTTP/1.1\r\nHost: ", "x\r\n\r", "\n"] {
        late.write_all(piece.as_bytes()).unwrap();
        thread::sleep(Duration::from_millis(20));
    }
    let mut text = String::new();
    late.read_to_string(&mut text).unwrap();
    assert!(text.starts_with("HTTP/1.1 200 OK") && text.ends_with("</html>\n"), "{text}");
    // a request without an end
    let mut long = connected(&running);
    let _ = long.write_all(&[b'x'; 20_000]);
    assert_eq!(long.read(&mut [0; 10]).unwrap_or(0), 0);
    drop(slow);
    assert_eq!(Client::of(&running).ask("mn\r\n"), "MN");
    assert!(running.stop());
}

#[test]
fn a_port_that_another_has_is_an_error_of_the_start() {
    let other = TcpListener::bind("127.0.0.1:0").unwrap();
    let port = other.local_addr().unwrap().port().to_string();
    let refused = Sockets::open(&config(&["--port", "0", "--metrics-port", &port])).unwrap_err();
    assert_eq!(refused.kind(), std::io::ErrorKind::AddrInUse);
}

#[test]
fn without_a_port_nothing_is_kept_or_timed() {
    let running = in_memory(&[]);
    let mut client = Client::of(&running);
    for _ in 0..100 {
        client.value("none");
    }
    assert!(running.pages.is_none() && samples(&running) == 0);
    running.server.note();
    running.server.history.show(|_, times| assert!(times.unwrap().iter().all(|times| times.count() == 0)));
    assert!(running.stop());
}
