//! The tables of the page: of the last hour, and since the start.
use super::history::{sum, Sample};
use crate::stats::losses;
use crate::times::{Histograms, KINDS};
use kilambosetry::Histogram;
use kilambosetry_pictures::bytes::Bytes;
use kilambosetry_pictures::page::Table;

// A count, with its name.
type Counted = (&'static str, fn(&Sample) -> u64);

/// Why gets missed.
pub const MISSES: [Counted; 4] = [
    ("absent", |it| it.stats.misses_absent),
    ("expired", |it| it.stats.misses_expired),
    ("fault", |it| it.stats.misses_by_fault),
    ("flushed", |it| it.flushed),
];

const COMMANDS: [Counted; 11] = [
    ("gets that hit", |it| it.sums.get_hits),
    ("gets that missed", |it| it.sums.get_misses),
    ("values to be stored", |it| it.sums.cmd_set),
    ("values refused, too large", |it| it.sums.store_too_large),
    ("values refused, no memory", |it| it.sums.store_no_memory),
    ("deletes", |it| it.sums.delete_hits + it.sums.delete_misses),
    ("counted up or down", |it| it.sums.incr_hits + it.sums.incr_misses + it.sums.decr_hits + it.sums.decr_misses),
    ("touched", |it| it.sums.cmd_touch),
    ("leases won", |it| it.sums.leases_won),
    ("stores by leases refused", |it| it.sums.leases_refused),
    ("connections closed, idle or stalled", |it| it.sums.stall_kicks + it.sums.idle_kicks),
];

const FLASH: [Counted; 6] = [
    ("pages written", |it| it.stats.device.writes),
    ("pages read", |it| it.stats.device.reads),
    ("writes that failed", |it| it.stats.device.write_failures),
    ("reads that failed", |it| it.stats.device.read_failures),
    ("pages otherwise than written", |it| it.stats.device.lies),
    ("finds given up", |it| it.stats.given_up),
];

const TIMES: [(&str, f64); 4] = [("p50", 0.5), ("p90", 0.9), ("p99", 0.99), ("p99.9", 0.999)];

/// The tables of these samples and of what was counted up to now, of flash whose pages have so many bytes.
pub fn all(samples: &[Sample], now: &Sample, times: Option<Histograms>, page: u64) -> Vec<Table> {
    let rows = |counted: &[Counted]| counted.iter().map(|(name, number)| row(name, samples, now, number)).collect();
    let mut tables: Vec<Table> = times.iter().map(times_of).collect();
    tables.push(table("Commands", rows(&COMMANDS)));
    tables.push(table("Misses, by cause", rows(&MISSES)));
    tables.push(table("Items forgotten, by cause", lost(samples, now)));
    if page > 0 {
        let mut rows: Vec<Vec<String>> = rows(&FLASH);
        let bytes = |number: u64| Bytes(number * page).to_string();
        let written = |it: &Sample| it.stats.device.writes;
        rows.insert(0, vec!["bytes written".to_string(), bytes(sum(samples, written)), bytes(written(now))]);
        tables.push(table("Flash", rows));
    }
    tables
}

fn table(title: &str, rows: Vec<Vec<String>>) -> Table {
    let head = ["", "last hour", "since the start"].map(str::to_string).to_vec();
    Table { title: title.to_string(), head, rows }
}

fn row(name: &str, samples: &[Sample], now: &Sample, number: impl Fn(&Sample) -> u64) -> Vec<String> {
    vec![name.to_string(), count(sum(samples, &number)), count(number(now))]
}

// Those causes of which there was any.
fn lost(samples: &[Sample], now: &Sample) -> Vec<Vec<String>> {
    let causes = losses(&now.stats.losses);
    let any = causes.iter().enumerate().filter(|(_, (_, number))| *number > 0);
    let mut rows: Vec<Vec<String>> = any
        .map(|(place, (name, _))| {
            let name = name.trim_start_matches("lost_").replace('_', " ");
            row(&name, samples, now, |it| losses(&it.stats.losses)[place].1)
        })
        .collect();
    if rows.is_empty() {
        rows.push(["none", "0", "0"].map(str::to_string).to_vec());
    }
    rows
}

fn times_of(times: &Histograms) -> Table {
    let micros = |times: &Histogram, share| match (times.count(), times.quantile(share)) {
        (0, _) => "-".to_string(),
        (_, long @ 1_000_000..) => count(long / 1000),
        (_, time) => format!("{:.1}", time as f64 / 1e3),
    };
    let row = |((_, name), times): (&(_, &str), &Histogram)| {
        let shares = TIMES.iter().map(|(_, share)| micros(times, *share));
        [name.to_string(), count(times.count())].into_iter().chain(shares).collect()
    };
    let head = ["microseconds", "timed"].into_iter().chain(TIMES.map(|(name, _)| name));
    Table {
        title: "How long commands of the last hour took".to_string(),
        head: head.map(str::to_string).collect(),
        rows: KINDS.iter().zip(times).map(row).collect(),
    }
}

/// A number, in groups of three digits.
pub fn count(number: u64) -> String {
    let digits = number.to_string();
    let mut text = String::new();
    for (place, digit) in digits.chars().enumerate() {
        if place > 0 && (digits.len() - place).is_multiple_of(3) {
            text.push(',');
        }
        text.push(digit);
    }
    text
}

#[cfg(test)]
mod tests {
    use super::*;

    #[test]
    fn digits_stand_in_groups() {
        let told = [0, 999, 1000, 1_234_567, 12_345_678].map(count);
        assert_eq!(told, ["0", "999", "1,000", "1,234,567", "12,345,678"]);
    }
}
