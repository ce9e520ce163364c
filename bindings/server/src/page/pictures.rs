//! The pictures of the last hour.
use super::history::{grown, Sample, QUANTILES};
use crate::stats::losses;
use kilambosetry_pictures::axis::{Axis, Unit};
use kilambosetry_pictures::picture::{Line, Picture};
use std::time::Duration;

// Pictures go back so many minutes: the fewest that show all samples of the last hour.
const SPANS: [u32; 5] = [5, 10, 20, 30, 60];

// A number of a sample.
type Number = fn(&Sample) -> u64;

// The samples that pictures are made of.
struct Samples<'a> {
    all: &'a [Sample],
    now: Duration,
    minutes: u32,
}

/// The pictures that these samples have something to show in, of flash whose pages have so many bytes.
pub fn all(samples: &[Sample], now: Duration, page: u64) -> Vec<Picture> {
    let it = Samples { all: samples, now, minutes: minutes(samples, now) };
    let mut pictures = vec![it.hits(page > 0), it.commands(), it.times(), it.filled(page > 0)];
    pictures.push(it.misses());
    let lost = it.lost();
    if !lost.lines.is_empty() {
        pictures.push(lost);
    }
    if page > 0 {
        pictures.push(it.flash(page));
    }
    pictures
}

fn minutes(samples: &[Sample], now: Duration) -> u32 {
    let oldest = samples.first().map_or(Duration::ZERO, |sample| now.saturating_sub(sample.at));
    let shows_all = |minutes: &u32| oldest <= Duration::from_secs(u64::from(*minutes) * 60);
    SPANS.into_iter().find(shows_all).unwrap_or(SPANS[SPANS.len() - 1])
}

impl Samples<'_> {
    fn picture(&self, title: &str, unit: Unit, is_log: bool, lines: Vec<Line>) -> Picture {
        let across = Axis::new("minutes ago", Unit::MinutesAgo(self.minutes), false);
        Picture { title: title.to_string(), across, up: Axis::new("", unit, is_log), lines }
    }

    // (a line alone has no name beside it)
    fn by_cause(&self, title: &str, lines: Vec<Line>) -> Picture {
        let causes = if let [line] = &lines[..] { &line.name } else { "by cause" };
        self.picture(&format!("{title}, {causes}"), Unit::Number, false, lines)
    }

    // Where a sample stands.
    fn minute(&self, sample: &Sample) -> f64 {
        f64::from(self.minutes) - self.now.saturating_sub(sample.at).as_secs_f64() / 60.0
    }

    // A line of what each two samples in a row tell, as far as they are of the last hour.
    fn line(&self, name: &str, number: impl Fn(&Sample, &Sample) -> Option<f64>) -> Line {
        let point = |two: &[Sample]| Some((self.minute(&two[1]), number(&two[0], &two[1])?));
        let points = self.all.windows(2).filter_map(point).filter(|(minute, _)| *minute >= 0.0).collect();
        Line { name: name.to_string(), points }
    }

    // How much more there is a second.
    fn rate(&self, name: &str, number: impl Fn(&Sample) -> u64) -> Line {
        self.line(name, |before, now| {
            let seconds = now.at.saturating_sub(before.at).as_secs_f64();
            Some(grown(number(before), number(now)) as f64 / seconds.max(1e-3))
        })
    }

    fn hits(&self, has_flash: bool) -> Picture {
        let mut lines = vec![self.line("all", hit_share)];
        if has_flash {
            lines.push(self.line("in memory", |before, now| Some(hit_share(before, now)? * memory_share(before, now))));
        }
        self.picture("Hits, of all gets", Unit::Share, false, lines)
    }

    fn commands(&self) -> Picture {
        let lines =
            [("gets", gets as Number), ("stores", |it| it.sums.cmd_set), ("other commands that have a key", others)];
        let lines = lines.into_iter().map(|(name, number)| self.rate(name, number)).collect();
        self.picture("Commands a second", Unit::Number, false, lines)
    }

    fn times(&self) -> Picture {
        let of = |(place, (name, _)): (usize, &(&str, f64))| self.line(name, |_, now| Some(now.gets?[place] as f64));
        let lines = QUANTILES.iter().enumerate().map(of).collect();
        self.picture("How long gets take", Unit::Nanoseconds, true, lines)
    }

    fn filled(&self, has_flash: bool) -> Picture {
        let share = |part: u64, all: u64| (all > 0).then(|| part as f64 / all as f64);
        let memory = self.line("memory", |_, now| share(now.stats.memory_bytes, now.stats.memory_limit_bytes));
        let flash = self.line("flash", |_, now| share(now.stats.flash_bytes, now.stats.flash_limit_bytes));
        match has_flash {
            true => self.picture("Memory and flash that are filled", Unit::Share, false, vec![memory, flash]),
            false => self.picture("Memory that is filled", Unit::Share, false, vec![memory]),
        }
    }

    fn misses(&self) -> Picture {
        let causes = super::tables::MISSES.iter().map(|(name, number)| self.rate(name, number)).collect();
        self.by_cause("Misses a second", shown(causes, 1))
    }

    fn lost(&self) -> Picture {
        let names = losses(&self.all[0].stats.losses).map(|(name, _)| name);
        let of = |(place, name): (usize, &str)| {
            self.rate(&name.trim_start_matches("lost_").replace('_', " "), |sample| {
                losses(&sample.stats.losses)[place].1
            })
        };
        let causes = names.into_iter().enumerate().map(of).collect();
        self.by_cause("Items forgotten a second", shown(causes, 0))
    }

    fn flash(&self, page: u64) -> Picture {
        let written = self.rate("written", |it| it.stats.device.writes * page);
        let read = self.rate("read", |it| it.stats.device.reads * page);
        self.picture("Bytes of flash a second", Unit::Bytes, false, vec![written, read])
    }
}

// The lines in which there is anything, and so many in any case.
fn shown(lines: Vec<Line>, least: usize) -> Vec<Line> {
    let has_any = |line: &Line| line.points.iter().any(|(_, number)| *number > 0.0);
    lines
        .into_iter()
        .enumerate()
        .filter(|(place, line)| *place < least || has_any(line))
        .map(|(_, line)| line)
        .collect()
}

fn gets(sample: &Sample) -> u64 {
    sample.sums.get_hits + sample.sums.get_misses
}

// (a get that touches is one of these)
fn others(sample: &Sample) -> u64 {
    let it = &sample.sums;
    it.delete_hits + it.delete_misses + it.incr_hits + it.incr_misses + it.decr_hits + it.decr_misses + it.cmd_touch
}

fn hit_share(before: &Sample, now: &Sample) -> Option<f64> {
    let hits = grown(before.sums.get_hits, now.sums.get_hits);
    let all = hits + grown(before.sums.get_misses, now.sums.get_misses);
    (all > 0).then(|| hits as f64 / all as f64)
}

// Of what the cache found, so much was in memory.
fn memory_share(before: &Sample, now: &Sample) -> f64 {
    let memory = grown(before.stats.hits_from_memory, now.stats.hits_from_memory);
    let all = memory + grown(before.stats.hits_from_flash, now.stats.hits_from_flash);
    memory as f64 / all.max(1) as f64
}

#[cfg(test)]
mod tests {
    use super::*;
    use crate::counters::Sums;
    use kilambosetry::Stats;

    fn sample(second: u64, sums: Sums) -> Sample {
        Sample { at: Duration::from_secs(second), stats: Stats::default(), sums, flushed: 0, gets: None }
    }

    #[test]
    fn pictures_go_back_as_far_as_there_are_samples_and_an_hour_at_most() {
        let first = [sample(100, Sums::default())];
        for (now, wanted) in [(100, 5), (400, 5), (401, 10), (3000, 60), (4000, 60), (1_000_000, 60)] {
            assert_eq!(minutes(&first, Duration::from_secs(now)), wanted, "{now}");
        }
    }

    // Of 30 gets in ten seconds 20 hit; then there is none; and what began anew counts from there.
    #[test]
    fn a_point_stands_for_the_ten_seconds_before_it() {
        let at = |second, get_hits, get_misses| sample(second, Sums { get_hits, get_misses, ..Sums::default() });
        let all = [at(0, 100, 100), at(10, 120, 110), at(20, 120, 110), at(30, 5, 5)];
        let it = Samples { all: &all, now: Duration::from_secs(60), minutes: 5 };
        let near = |points: &[(f64, f64)], wanted: &[(f64, f64)]| {
            let is_near =
                |(one, other): (&(f64, f64), &(f64, f64))| (one.0 - other.0).abs() + (one.1 - other.1).abs() < 1e-9;
            points.len() == wanted.len() && points.iter().zip(wanted).all(is_near)
        };
        let hits = &it.hits(false).lines[0].points;
        assert!(near(hits, &[(5.0 - 50.0 / 60.0, 2.0 / 3.0), (4.5, 0.5)]), "{hits:?}");
        let gets = &it.commands().lines[0].points;
        assert!(near(gets, &[(5.0 - 50.0 / 60.0, 3.0), (5.0 - 40.0 / 60.0, 0.0), (4.5, 1.0)]), "{gets:?}");
    }
}
