use super::Ended;
use crate::caches::{Caches, Case};
use crate::drive::Way;
use crate::output::{Output, Told};
use crate::pictures::of_runs;
use crate::report::{json, summary, times_of, Outcome};
use crate::requests::{Means, Requests};
use crate::run::run;
use crate::stop;
use clap::Args;
use std::error::Error;

/// Puts requests to a cache, or to several.
#[derive(Debug, Args)]
pub struct Run {
    #[command(flatten)]
    requests: Requests,

    #[command(flatten)]
    caches: Caches,

    #[command(flatten)]
    output: Output,

    /// The first so many requests fill the cache at full speed, and aren't counted
    #[arg(short, long, value_name = "COUNT", default_value_t = 0)]
    warm: u64,

    /// Now and then waits until flash has what left memory: what hits doesn't depend on how fast flash is then, and how long
    /// requests take tells little
    #[arg(long)]
    keep_up: bool,
}

impl Run {
    /// Runs it, and tells what came of it; where requests end by an error, first what was measured until then.
    pub fn go(&self) -> Ended {
        let cases = self.caches.cases();
        if cases.len() > 1 && !self.requests.can_be_read_again() {
            return Err("what comes from a pipe can be put to one cache alone".into());
        }
        let means = self.requests.means()?;
        let (mut outcomes, mut ended) = (Vec::new(), Ok(()));
        for case in &cases {
            let mut outcome = self.one(case, means, cases.len() == 1)?;
            let error = outcome.measured.error.take();
            outcomes.push(outcome);
            if let Some(error) = error {
                ended = Err(error.into());
                break;
            }
            if stop::is_told() {
                break;
            }
        }
        self.output.give(&self.told(&outcomes))?;
        ended
    }

    fn one(&self, case: &Case, means: Option<Means>, is_alone: bool) -> Result<Outcome, Box<dyn Error>> {
        let (options, place) = (self.caches.options(case, means), self.caches.place(case));
        let (threads, is_quiet) = (usize::from(case.threads), self.output.quiet);
        let way = Way { threads, pace: case.pace, warm: self.warm, keeps_up: self.keep_up, is_quiet };
        let measured = run(self.requests.open()?, &options, &place, &way).map_err(|error| place.named(error))?;
        Ok(Outcome { case: case.clone(), measured, is_alone })
    }

    fn told(&self, outcomes: &[Outcome]) -> Told {
        let load = self.requests.in_words();
        let all = summary(outcomes);
        let mut text = format!("{load}\n");
        outcomes.iter().for_each(|outcome| text += &format!("\n{outcome}"));
        if outcomes.len() > 1 {
            text += &format!("\n{}", all.text());
        }
        let (json, pictures) = (json(&load, outcomes), of_runs(outcomes));
        let tables = [all].into_iter().chain(outcomes.iter().map(times_of)).collect();
        Told { load, text, json, pictures, tables }
    }
}
