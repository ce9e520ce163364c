//! What the server tells of itself.
use crate::answers::{Answers, Stream};
use crate::limits::has_memory;
use crate::moments;
use crate::server::{Server, Worker, VERSION};
use kilambosetry::{Losses, Stats, Times};
use std::fmt::Display;
use std::process;
use std::{fs, io};

// All rows together, and what makes them, are no longer; the paths of the settings have 4,096 bytes each.
const LONGEST: usize = 16 * 1024;
// The times of the cache take no more, as they are told.
const OF_TIMES: usize = 128 * 1024;

/// Answers the command `stats`.
pub fn answer<S: Stream>(worker: &Worker, kind: &[u8], answers: &mut Answers<S>) -> io::Result<()> {
    let taken = if worker.server.config.metrics_port > 0 { LONGEST + OF_TIMES } else { LONGEST };
    if !has_memory(taken) || !answers.has_room_for_text(LONGEST) {
        answers.line(b"SERVER_ERROR out of memory writing stats");
        return Ok(());
    }
    let mut tell = |name: &str, value: &dyn Display| answers.line(format!("STAT {name} {value}").as_bytes());
    match kind {
        b"" => general(&worker.server, &mut tell),
        b"settings" => worker.server.config.named().iter().for_each(|(name, value)| tell(name, value)),
        b"reset" => {
            worker.server.reset_counters();
            answers.line(b"RESET");
            return Ok(());
        }
        // (there are no slabs, and no list of items or connections)
        b"items" | b"slabs" | b"sizes" | b"conns" | b"extstore" | b"cachedump" | b"detail" => {}
        _ => {
            answers.line(b"ERROR");
            return Ok(());
        }
    }
    answers.line(b"END");
    Ok(())
}

fn general(server: &Server, tell: &mut dyn FnMut(&str, &dyn Display)) {
    let stats = server.items.cache().stats();
    tell("pid", &process::id());
    tell("uptime", &server.started.elapsed().as_secs());
    tell("time", &moments::now());
    tell("version", &VERSION);
    tell("pointer_size", &usize::BITS);
    tell("max_connections", &server.config.connections);
    tell("curr_connections", &server.open_connections());
    for (name, sum) in server.sums().named() {
        tell(name, &sum);
    }
    tell("get_expired", &server.items.found_expired());
    tell("get_flushed", &server.items.found_flushed());
    tell("connection_structures", &server.open_connections());
    let (user, system) = times();
    tell("rusage_user", &user);
    tell("rusage_system", &system);
    tell("limit_maxbytes", &server.config.options().memory);
    tell("accepting_conns", &1);
    tell("threads", &server.config.threads);
    NONE.iter().for_each(|name| tell(name, &0));
    tell("in_flight_free", &server.in_flight.left());
    tell("bars", &server.items.bars());
    for (name, value) in of_cache(&stats) {
        tell(name, &value);
    }
    if let Some(times) = server.items.cache().times() {
        of_times(&times, tell);
    }
}

// How long things took, in microseconds: half of them, and 99 of a hundred.
fn of_times(times: &Times, tell: &mut dyn FnMut(&str, &dyn Display)) {
    let all = [
        ("get", &times.gets),
        ("waiting_get", &times.waiting_gets),
        ("flash_read", &times.device_reads),
        ("flash_write", &times.device_writes),
    ];
    for (name, times) in all {
        for (part, share) in [("p50", 0.5), ("p99", 0.99)] {
            tell(&format!("{name}_{part}_us"), &(times.quantile(share) / 1000));
        }
    }
}

// Rows of memcached's that agents read, and that are 0: it stops listening for nobody, has no passwords, no table of its own that grows and no
// slabs, and doesn't keep which items were found before they went.
const NONE: [&str; 12] = [
    "listen_disabled_num",
    "time_in_listen_disabled_us",
    "auth_cmds",
    "auth_errors",
    "hash_power_level",
    "hash_bytes",
    "hash_is_expanding",
    "slab_reassign_running",
    "slabs_moved",
    "expired_unfetched",
    "evicted_unfetched",
    "evicted_active",
];

// The seconds of the process, its own and those of the system for it, as far as the system tells them.
fn times() -> (String, String) {
    let text = fs::read_to_string("/proc/self/stat").unwrap_or_default();
    // (the name of the program, in parentheses, may have spaces)
    let mut words = text.rsplit(')').next().unwrap_or_default().split_ascii_whitespace().skip(11);
    let ticks = rustix::param::clock_ticks_per_second();
    let mut seconds = || {
        let count = words.next().and_then(|word| word.parse().ok()).unwrap_or(0_u64);
        format!("{}.{:06}", count / ticks, count % ticks * 1_000_000 / ticks)
    };
    (seconds(), seconds())
}

// What the cache tells: in memcached's words first, where they mean the same.
fn of_cache(stats: &Stats) -> Vec<(&'static str, u64)> {
    let device = &stats.device;
    let mut all = vec![
        ("curr_items", stats.memory_items),
        ("total_items", stats.stored),
        ("bytes", stats.memory_bytes),
        ("evictions", evictions(&stats.losses)),
        ("reclaimed", stats.losses.expired),
        ("items_limit_bytes", stats.memory_limit_bytes),
        ("hits_from_memory", stats.hits_from_memory),
        ("hits_from_flash", stats.hits_from_flash),
        ("misses_expired", stats.misses_expired),
        ("misses_by_fault", stats.misses_by_fault),
        ("lock_waits", stats.lock_waits),
        ("flash_bytes", stats.flash_bytes),
        ("flash_limit_bytes", stats.flash_limit_bytes),
        ("flash_reads", device.reads),
        ("flash_writes", device.writes),
        ("flash_read_failures", device.read_failures),
        ("flash_write_failures", device.write_failures),
        ("flash_lies", device.lies),
        ("flash_waiting", stats.waiting),
        ("flash_given_up", stats.given_up),
        ("flash_queue_length", stats.queue_length),
        ("flash_shards_behind", stats.shards_behind),
    ];
    all.extend(losses(&stats.losses));
    all
}

// Items that left memory before their time, and aren't on flash.
fn evictions(losses: &Losses) -> u64 {
    losses.no_flash + losses.tombstone + losses.not_admitted + losses.too_large + losses.queue_full
}

/// Items that were forgotten, by the reason.
#[must_use]
pub fn losses(losses: &Losses) -> [(&'static str, u64); 11] {
    [
        ("lost_no_flash", losses.no_flash),
        ("lost_tombstone", losses.tombstone),
        ("lost_not_admitted", losses.not_admitted),
        ("lost_too_large", losses.too_large),
        ("lost_queue_full", losses.queue_full),
        ("lost_expired", losses.expired),
        ("lost_bucket_full", losses.bucket_full),
        ("lost_reclaimed", losses.reclaimed),
        ("lost_no_clean_region", losses.no_clean_region),
        ("lost_collision", losses.collision),
        ("lost_fault", losses.fault),
    ]
}
