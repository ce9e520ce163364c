//! The pages: for Prometheus, and for the eye.
use crate::limits::has_memory;
use crate::page;
use crate::server::Server;
use crate::times::{Histograms, KINDS};
use crate::within::within;
use std::collections::VecDeque;
use std::fmt::Write;
use std::io;
use std::sync::Arc;
use std::time::Duration;
use tokio::io::{AsyncReadExt, AsyncWriteExt};
use tokio::net::{TcpListener, TcpStream};
use tokio::task::JoinHandle;

const LONGEST_REQUEST: usize = 8 * 1024;
// A page for Prometheus, as it is made, takes no more; where there is no memory for it, whoever asks has no answer.
const OF_A_PAGE: usize = 512 * 1024;
const PATIENCE: Duration = Duration::from_secs(5);
const MOST_AT_ONCE: usize = 16;
const PAUSE: Duration = Duration::from_millis(100);

// What is answered: the status, the kind of the text, and the text.
type Answer = (&'static str, &'static str, String);

const TEXT: &str = "text/plain; version=0.0.4";
// (nothing comes from elsewhere, and nobody else may show it within a page of theirs)
const HTML: &str = "text/html; charset=utf-8\r\nCache-Control: no-store\r\n\
     Content-Security-Policy: default-src 'none'; style-src 'unsafe-inline'; frame-ancestors 'none'";

/// Serves the pages until this is dropped: to the last who came, so that those who say nothing keep nobody out.
pub async fn serve(server: Arc<Server>, listener: TcpListener) {
    let mut served: VecDeque<JoinHandle<()>> = VecDeque::new();
    loop {
        let Ok((stream, _)) = listener.accept().await else {
            tokio::time::sleep(PAUSE).await;
            continue;
        };
        if !has_memory(OF_A_PAGE) {
            continue;
        }
        if served.len() == MOST_AT_ONCE {
            // (most have long ended)
            served.pop_front().iter().for_each(JoinHandle::abort);
        }
        let server = Arc::clone(&server);
        served.push_back(tokio::spawn(async move {
            let _ = within(PATIENCE, answer(&server, stream)).await;
        }));
    }
}

async fn answer(server: &Server, mut stream: TcpStream) -> io::Result<()> {
    let mut request = Vec::new();
    while !request.windows(4).any(|end| end == b"\r\n\r\n") {
        if request.len() > LONGEST_REQUEST || stream.read_buf(&mut request).await? == 0 {
            return Ok(());
        }
    }
    let line = request.split(|byte| *byte == b'\r').next().unwrap_or_default();
    let (method, path, query) = parts_of(line);
    let (status, kind, text) = match (method, path) {
        (b"GET" | b"HEAD", b"/metrics") => ("200 OK", TEXT, page(server)),
        (b"GET" | b"HEAD", b"/") => pictures(server, query),
        _ => ("404 Not Found", TEXT, "The pages are / and /metrics\n".to_string()),
    };
    let length = text.len();
    let head =
        format!("HTTP/1.1 {status}\r\nContent-Type: {kind}\r\nContent-Length: {length}\r\nConnection: close\r\n\r\n");
    stream.write_all(head.as_bytes()).await?;
    if method != b"HEAD" {
        stream.write_all(text.as_bytes()).await?;
    }
    stream.shutdown().await
}

fn pictures(server: &Server, query: &[u8]) -> Answer {
    match page::html(server, query == page::EVERY) {
        Some(page) => ("200 OK", HTML, page),
        None => ("503 Service Unavailable", TEXT, "There is no memory for the page\n".to_string()),
    }
}

// The method, the path, and what follows a question mark.
fn parts_of(line: &[u8]) -> (&[u8], &[u8], &[u8]) {
    let mut words = line.split(|byte| *byte == b' ');
    let (method, target) = (words.next().unwrap_or_default(), words.next().unwrap_or_default());
    let mut parts = target.splitn(2, |byte| *byte == b'?');
    (method, parts.next().unwrap_or_default(), parts.next().unwrap_or_default())
}

/// The cache's counts and times, and the server's own.
#[must_use]
pub fn page(server: &Server) -> String {
    let mut text = server.items.cache().stats().to_prometheus();
    for (name, sum) in server.sums().named() {
        add(&mut text, name, "_total", "counter", sum);
    }
    add(&mut text, "connections", "", "gauge", server.open_connections() as u64);
    add(&mut text, "in_flight_free_bytes", "", "gauge", server.in_flight.left() as u64);
    add(&mut text, "uptime_seconds", "", "gauge", server.started.elapsed().as_secs());
    if let Some(times) = server.items.cache().times() {
        text += &times.to_prometheus();
        add_times(&mut text, &server.times());
    }
    text
}

// How long commands took, of one in sixteen.
fn add_times(text: &mut String, times: &Histograms) {
    let name = "kilambosetryd_command_seconds";
    let _ = writeln!(text, "# TYPE {name} histogram");
    for ((_, kind), times) in KINDS.iter().zip(times) {
        *text += &times.to_prometheus(name, &format!("kind=\"{}\"", kind.replace(' ', "_")));
    }
}

fn add(text: &mut String, name: &str, end: &str, kind: &str, value: u64) {
    let name = format!("kilambosetryd_{name}{end}");
    // (text takes all that is written to it)
    let _ = write!(text, "# TYPE {name} {kind}\n{name} {value}\n");
}
