//! The program.
use clap::{Parser, Subcommand};
use kilambosetry_bench::commands::{Advise, Beside, Curve, Make, Read, Run};
use kilambosetry_bench::stop;
use std::process::exit;

/// What the hybrid cache Kilambosetry does for a load, in numbers and pictures
#[derive(Parser)]
#[command(name = "kilambosetry-bench", version)]
struct Program {
    #[command(subcommand)]
    command: Command,
}

#[derive(Subcommand)]
enum Command {
    /// Puts requests to a cache, or to several, and tells what came of them
    Run(Run),
    /// Tells the hit ratios of all sizes of memory at once, without a run, by a sample of the keys
    Curve(Curve),
    /// Tries options within limits, and says which to write
    Advise(Advise),
    /// Puts the same requests to this cache and to others: the crate `lru` behind a lock, and memcached
    Beside(Beside),
    /// Writes requests as lines in Twitter's form
    Make(Make),
    /// Reads a file of requests alone: how many lines, of what sizes, and how fast
    Read(Read),
}

fn main() {
    // (else what one thread gives back no other takes, and more is resident)
    kilambosetry::share_one_heap();
    stop::watch();
    let ended = match Program::parse().command {
        Command::Run(run) => run.go(),
        Command::Curve(curve) => curve.go(),
        Command::Advise(advise) => advise.go(),
        Command::Beside(beside) => beside.go(),
        Command::Make(make) => make.go(),
        Command::Read(read) => read.go(),
    };
    if let Err(error) = ended {
        eprintln!("kilambosetry-bench: {error}");
        exit(1);
    }
}
