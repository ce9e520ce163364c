//! A line on the terminal that says how far the run is, and how long it takes still.
use std::io::{self, IsTerminal, Write};
use std::time::{Duration, Instant};

/// The line. Where the errors' output is no terminal, there is none.
pub struct Progress {
    begun: Instant,
    next: Option<Instant>,
    is_shown: bool,
}

const PAUSE: Duration = Duration::from_millis(500);
const WIDTH: usize = 30;

impl Progress {
    #[must_use]
    pub fn new(is_quiet: bool) -> Progress {
        let begun = Instant::now();
        let next = (!is_quiet && io::stderr().is_terminal()).then(|| begun + PAUSE);
        Progress { begun, next, is_shown: false }
    }

    /// Shows a share, where it is known, and a count, unless that was done just now.
    pub fn show(&mut self, share: Option<f64>, count: u64) {
        let now = Instant::now();
        if self.next.is_none_or(|next| now < next) {
            return;
        }
        self.next = Some(now + PAUSE);
        self.is_shown = true;
        let _ = write!(io::stderr(), "\r\x1b[K{}", line(share, count, now - self.begun));
    }

    /// Takes the line away.
    pub fn end(&mut self) {
        if self.is_shown {
            let _ = write!(io::stderr(), "\r\x1b[K");
        }
    }
}

fn line(share: Option<f64>, count: u64, passed: Duration) -> String {
    let rate = count as f64 / passed.as_secs_f64().max(1e-9);
    let Some(share) = share.filter(|share| *share > 0.0) else {
        return format!("{count} requests, {rate:.0} a second");
    };
    let share = share.min(1.0);
    let bar = "#".repeat((share * WIDTH as f64) as usize);
    let left = passed.as_secs_f64() * (1.0 - share) / share;
    format!("[{bar:WIDTH$}] {:.0} %, {count} requests, {rate:.0} a second, {left:.0} s left", share * 100.0)
}

#[cfg(test)]
mod tests {
    use super::*;

    #[test]
    fn the_line_says_what_is_left() {
        let said = line(Some(0.25), 1000, Duration::from_secs(10));
        assert_eq!(said, "[#######                       ] 25 %, 1000 requests, 100 a second, 30 s left");
        assert_eq!(line(None, 1000, Duration::from_secs(10)), "1000 requests, 100 a second");
    }
}
