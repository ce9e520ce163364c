//! The page for the eye: what the server does, and did in the last hour. One text of HTML, without scripts, and without anything from
//! elsewhere; it is loaded anew only where its reader asks for that.
pub mod history;
mod pictures;
mod tables;

use crate::server::{Server, VERSION};
use crate::times::Histograms;
use history::Sample;
use kilambosetry::Stats;
use kilambosetry_pictures::bytes::Bytes;
use kilambosetry_pictures::page;
use kilambosetry_pictures::picture::escaped;
use std::net::SocketAddr;
use std::time::Duration;
use tables::count;

/// What asks for a page that is loaded anew as samples come, behind the question mark.
pub const EVERY: &[u8] = b"every=10";

const ANEW: &str = "<meta http-equiv=\"refresh\" content=\"10\">\n";
const TOO_EARLY: &str =
    "<p>There is no picture yet: a sample is taken each ten seconds, and the first two make one. Below is what was \
     counted since the start.</p>\n";

/// No page is longer. It is written to one piece of memory; no other that it takes is longer than those of the reserve.
pub const LONGEST: usize = 256 * 1024;

/// The page, which may load itself anew. `None`: there is no memory for it.
#[must_use]
pub fn html(server: &Server, is_anew: bool) -> Option<String> {
    let mut page = String::new();
    page.try_reserve_exact(LONGEST).ok()?;
    let (now, bytes) = (server.sample(), page_bytes(server));
    page::begin(&mut page, &title(server), if is_anew { ANEW } else { "" });
    page += &said(server, is_anew);
    page += &filled(&now.stats);
    server.history.show(|samples, times| write(&mut page, samples, &now, times, bytes));
    page += page::END;
    Some(page)
}

// Writes what these samples show.
fn write(page: &mut String, samples: &[Sample], now: &Sample, times: Option<Histograms>, bytes: u64) {
    match samples.len() {
        0 | 1 => *page += TOO_EARLY,
        _ => page::write_pictures(page, &pictures::all(samples, now.at, bytes)),
    }
    page::write_tables(page, &tables::all(samples, now, times, bytes));
}

fn title(server: &Server) -> String {
    let config = &server.config;
    match (&config.unix, config.port) {
        (Some(path), 0) => format!("kilambosetryd on {}", path.display()),
        (_, port) => format!("kilambosetryd on {}", SocketAddr::new(config.listen, port)),
    }
}

// Bytes of a page of flash; 0 without flash.
fn page_bytes(server: &Server) -> u64 {
    server.items.cache().numbers().flash.map_or(0, |flash| flash.page)
}

fn said(server: &Server, is_anew: bool) -> String {
    let up = in_words(server.started.elapsed());
    let (open, most) = (count(server.open_connections() as u64), count(u64::from(server.config.connections)));
    let link = match is_anew {
        true => "It is loaded anew each ten seconds; <a href=\"/\">no more</a>.",
        false => "<a href=\"/?every=10\">Load it anew each ten seconds</a>.",
    };
    format!(
        "<p>Version {}, up for {up}; {open} of {most} connections.</p>\n<p>{link} <a href=\"/metrics\">All counts, for Prometheus</a>.</p>\n",
        escaped(VERSION)
    )
}

// So long, as one says it.
fn in_words(time: Duration) -> String {
    let seconds = time.as_secs();
    match seconds {
        0..=119 => format!("{seconds} s"),
        120..=7199 => format!("{} min", seconds / 60),
        7200..=172_799 => format!("{} h {} min", seconds / 3600, seconds / 60 % 60),
        _ => format!("{} days {} h", seconds / 86_400, seconds / 3600 % 24),
    }
}

// How full memory and flash are.
fn filled(stats: &Stats) -> String {
    let memory = format!(", {} items", count(stats.memory_items));
    let bars = [
        ("memory", stats.memory_bytes, stats.memory_limit_bytes, memory),
        ("flash", stats.flash_bytes, stats.flash_limit_bytes, String::new()),
    ];
    let bars = bars.into_iter().filter(|(_, _, most, _)| *most > 0);
    bars.map(|(name, bytes, most, more)| {
        let percent = bytes as f64 * 100.0 / most as f64;
        let said = format!("{name} {percent:.0} % filled: {} of {}{more}", Bytes(bytes), Bytes(most));
        format!("<label>{said}<meter min=\"0\" max=\"{most}\" value=\"{bytes}\">{percent:.0} %</meter></label>\n")
    })
    .collect()
}

#[cfg(test)]
mod tests {
    use super::history::History;
    use super::*;
    use crate::counters::Sums;
    use crate::times::{Kind, Times};

    // A sample of whose counts each is large, and grows.
    fn sample(number: u64) -> Sample {
        let many = 123_456_789 * number * number;
        let mut stats = Stats::default();
        (stats.hits_from_memory, stats.hits_from_flash) = (many, many);
        (stats.misses_absent, stats.misses_expired, stats.misses_by_fault) = (many, many, many);
        (stats.memory_limit_bytes, stats.flash_limit_bytes, stats.memory_bytes) = (many, many, many / 3);
        (stats.device.writes, stats.device.reads) = (many, many);
        let it = &mut stats.losses;
        (it.no_flash, it.tombstone, it.not_admitted, it.too_large) = (many, many, many, many);
        (it.queue_full, it.expired, it.bucket_full, it.reclaimed) = (many, many, many, many);
        (it.no_clean_region, it.collision, it.fault) = (many, many, many);
        let sums = Sums { get_hits: many, get_misses: many, cmd_set: many, delete_hits: many, ..Sums::default() };
        Sample { at: Duration::from_secs(number * 10), stats, sums, flushed: many, gets: None }
    }

    #[test]
    fn the_longest_page_has_room() {
        let (history, times) = (History::new(true), Times::new(true));
        for number in 0..361 {
            (0..100).for_each(|step| times.add(Kind::Get, Duration::from_nanos(number * 7919 * step)));
            history.note(sample(number), Times::of_all(&[&times]));
        }
        let mut page = String::new();
        page::begin(&mut page, &"&".repeat(107), ANEW);
        history.show(|samples, times| write(&mut page, samples, &sample(361), times, 4096));
        assert!(page.matches("<svg").count() == 7 && page.matches("<path class=\"line").count() >= 27 * 2 - 2);
        assert!((100_000..LONGEST - 8 * 1024).contains(&page.len()), "{}", page.len());
        assert!(!page.contains("NaN") && !page.contains("inf"), "{page}");
    }

    // Two who keep samples at once may keep them in another order.
    #[test]
    fn samples_out_of_order_and_of_one_moment_are_shown() {
        let history = History::new(true);
        for number in [5, 3, 3, 9] {
            history.note(sample(number), Times::of_all(&[]));
        }
        let mut page = String::new();
        history.show(|samples, times| write(&mut page, samples, &sample(4), times, 4096));
        assert!(page.contains("<svg") && !page.contains("NaN") && !page.contains("inf"), "{page}");
    }

    #[test]
    fn times_are_said_as_one_says_them() {
        let said = [5, 119, 120, 7200, 90_000, 200_000].map(|seconds| in_words(Duration::from_secs(seconds)));
        assert_eq!(said, ["5 s", "119 s", "2 min", "2 h 0 min", "25 h 0 min", "2 days 7 h"]);
    }
}
