use super::Ended;
use crate::request::{Request, Source};
use crate::requests::Requests;
use crate::stop;
use clap::Args;
use std::time::Instant;

/// Reads requests alone.
#[derive(Debug, Args)]
pub struct Read {
    #[command(flatten)]
    requests: Requests,
}

impl Read {
    /// Prints how many there are, of what sizes, and how fast they were read.
    pub fn go(&self) -> Ended {
        let (mut source, mut request) = (self.requests.open()?, Request::default());
        let (mut count, mut keys, mut values) = (0u64, 0u64, 0u64);
        let begun = Instant::now();
        while !(count.is_multiple_of(4096) && stop::is_told()) && source.next(&mut request)? {
            count += 1;
            keys += request.key.len() as u64;
            values += request.value as u64;
        }
        let (seconds, passed) = (begun.elapsed().as_secs_f64(), source.passed());
        let mean = |sum: u64| sum as f64 / count.max(1) as f64;
        let lines = format!("{} lines, {} of them passed over", passed.lines, passed.bad);
        println!("{}: {count} requests ({lines}) in {seconds:.3} s", self.requests.in_words());
        let rate = count as f64 / seconds.max(1e-9);
        println!("{rate:.0} a second; keys of {:.1} bytes, values of {:.1}", mean(keys), mean(values));
        Ok(())
    }
}
