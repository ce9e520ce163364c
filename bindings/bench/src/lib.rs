//! What the cache does for a load: requests, made up or from a file, are put to it, and what came of them is told in numbers and
//! pictures. docs/BENCH.md says how it is used.
pub mod advise;
pub mod caches;
pub mod commands;
pub mod counts;
pub mod curve;
pub mod drive;
pub mod errors;
pub mod feed;
pub mod forms;
pub mod generate;
pub mod json;
pub mod lines;
pub mod memcached;
pub mod output;
pub mod pictures;
pub mod plain;
pub mod progress;
pub mod random;
pub mod report;
pub mod request;
pub mod requests;
pub mod resident;
pub mod run;
pub mod samples;
pub mod shards;
pub mod sizes;
pub mod stack;
pub mod stop;
pub mod sums;
pub mod tally;
pub mod target;
pub mod trace;
pub mod unpack;
pub mod zipf;

pub use kilambosetry_pictures::{axis, bytes, page, picture};
