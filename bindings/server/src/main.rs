//! The program: its command line, its start and its end.
#![deny(unsafe_code)]

#[allow(unsafe_code)]
mod reserve;

use clap::Parser;
use kilambosetry::{HybridCache, Watch};
use kilambosetryd::config::Config;
use kilambosetryd::handles;
use kilambosetryd::listen::{serve, Ended, Sockets};
use kilambosetryd::server::Server;
use std::error::Error;
use std::future::Future;
use std::io::{self, Write};
use std::process::exit;
use std::sync::{Arc, Mutex, PoisonError};
use std::thread;
use std::time::{Duration, Instant};
use tokio::runtime::Builder;
use tokio::signal::unix::{signal, Signal, SignalKind};
use tokio::sync::{oneshot, watch};

#[global_allocator]
static HEAP: reserve::Reserved = reserve::Reserved::new();

// Where a file may not become as long as the flash (`ulimit -f`), the system's error tells so, and this signal ends nothing.
const FILE_TOO_LONG: i32 = rustix::process::Signal::Xfsz as i32;

fn main() {
    match run(Config::parse()) {
        // (threads that wait for a device that hangs aren't waited for)
        Ok(()) => exit(0),
        Err(error) => {
            eprintln!("kilambosetryd: {error}");
            exit(1);
        }
    }
}

fn run(mut config: Config) -> Result<(), Box<dyn Error>> {
    let runtime = Builder::new_current_thread().enable_all().build()?;
    let within = runtime.enter();
    // (who finds a socket open may tell the process to end)
    let told = [signal(SignalKind::terminate())?, signal(SignalKind::interrupt())?];
    let _file_too_long = signal(SignalKind::from_raw(FILE_TOO_LONG))?;
    drop(within);
    let connections = handles::raised_for(config.connections, config.threads);
    if connections < config.connections {
        say(&format!("{connections} connections and no more: the process may have no more file handles"));
        config.connections = connections;
    }
    let (tell, signals) = watch::channel(0);
    runtime.spawn(count(told, tell));
    let Some(cache) = runtime.block_on(opened(&config, signals.clone())) else {
        say("ended as it opened");
        return Ok(());
    };
    let server = Server::new(config, cache?);
    let sockets = Sockets::open(&server.config).inspect_err(|_| {
        server.close(); // (what was kept is for the next one)
    })?;
    for (name, value) in server.config.named() {
        say(&format!("{name} {value}"));
    }
    say(&server.items.cache().numbers().to_string());
    if server.config.keep.is_some() {
        say(&server.items.cache().kept().to_string());
    }
    runtime.block_on(async {
        say("ready");
        tokio::select! {
            ended = serve_and_close(server, sockets, has_come(1, signals.clone())) => ended?,
            () = has_come(2, signals) => say("ended at once"),
        }
        Ok(())
    })
}

// Opens the cache, by a thread of its own: reading what was kept may take long, and who tells the process to end isn't to wait for that.
// None: it is told to end. What was kept is there for the next one then, unless it was taken already.
async fn opened(config: &Config, signals: watch::Receiver<u32>) -> Option<Result<HybridCache, Box<dyn Error>>> {
    let (tell, told) = oneshot::channel();
    let opens = config.clone();
    let started = thread::Builder::new().name("open".to_string()).spawn(move || {
        // (who has gone has no use for it)
        drop(tell.send(opens.open_watched(told_each_second())));
    });
    if let Err(error) = started {
        return Some(Err(error.into()));
    }
    tokio::select! {
        opened = told => Some(opened.map_err(Into::into).and_then(|opened| opened.map_err(Into::into))),
        () = has_come(1, signals) => None,
    }
}

// Tells how far what is kept is read or written, once a second.
fn told_each_second() -> Watch {
    let last = Mutex::new(Instant::now());
    Watch::new(move |progress| {
        let mut last = last.lock().unwrap_or_else(PoisonError::into_inner);
        if last.elapsed() >= Duration::from_secs(1) {
            *last = Instant::now();
            say(&format!("{} of {} shards, {} MB", progress.shards, progress.of, progress.bytes / 1_000_000));
        }
    })
}

// Counts how often the process is told to end.
async fn count([mut terminate, mut interrupt]: [Signal; 2], tell: watch::Sender<u32>) {
    loop {
        tokio::select! {
            _ = terminate.recv() => {}
            _ = interrupt.recv() => {}
        }
        tell.send_modify(|signals| *signals += 1);
    }
}

// Waits for so many signals.
async fn has_come(count: u32, mut signals: watch::Receiver<u32>) {
    while *signals.borrow_and_update() < count {
        let _ = signals.changed().await; // (who counts them doesn't end)
    }
}

async fn serve_and_close(server: Arc<Server>, sockets: Sockets, stop: impl Future) -> io::Result<()> {
    let ended = serve(Arc::clone(&server), sockets, stop).await?;
    match (&server.config.keep, ended) {
        (Some(_), Ended::Hangs) => say("not kept: a connection hangs"),
        (Some(_), _) => close(&server).await?,
        (None, _) => say(&server.items.cache().stats().to_string()),
    }
    say(if ended == Ended::Drained { "ended" } else { "ended, and not all connections had their answers in time" });
    Ok(())
}

// Waits for a close whose device hangs so much longer than it may take.
const LONGER: Duration = Duration::from_secs(2);

// Closes the cache by a thread of its own: a device that hangs, and a signal, end the process all the same.
async fn close(server: &Arc<Server>) -> io::Result<()> {
    let (tell, told) = oneshot::channel();
    let closes = Arc::clone(server);
    thread::Builder::new().name("close".to_string()).spawn(move || tell.send(closes.close().to_string()))?;
    match tokio::time::timeout(server.config.close().saturating_add(LONGER), told).await {
        Ok(Ok(closed)) => say(&closed),
        _ => say("not kept: the close took too long"),
    }
    Ok(())
}

// Prints a line. Where nobody reads it, the server goes on.
fn say(line: &str) {
    let _ = writeln!(io::stdout(), "{line}");
}
