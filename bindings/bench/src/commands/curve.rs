use super::{options_of, Ended};
use crate::bytes::Bytes;
use crate::curve::{points, read, sizes, Point};
use crate::json::Json;
use crate::output::{Output, Told};
use crate::page::Table;
use crate::pictures::of_curve;
use crate::requests::Requests;
use crate::shards::Sampled;
use crate::stop;
use clap::{value_parser, Args};

/// The hit ratios of many sizes of memory, by a sample of the keys.
#[derive(Debug, Args)]
pub struct Curve {
    #[command(flatten)]
    requests: Requests,

    #[command(flatten)]
    output: Output,

    /// Sizes of memory, with commas between them; else those from a thousandth of what all keys take up to that
    #[arg(short, long, value_name = "BYTES", value_delimiter = ',')]
    memory: Vec<Bytes>,

    /// The sample has so many keys at most
    #[arg(long, value_name = "COUNT", default_value_t = 500_000, value_parser = value_parser!(u32).range(1..))]
    sample: u32,

    /// The first so many requests aren't counted
    #[arg(short, long, value_name = "COUNT", default_value_t = 0)]
    warm: u64,
}

impl Curve {
    /// Reads the requests, and tells the curve.
    pub fn go(&self) -> Ended {
        let options = options_of(self.requests.means()?);
        let sampled = Sampled::new(1.0, self.sample as usize);
        let read = read(self.requests.open()?, sampled, self.warm, self.output.quiet);
        let wanted = match &self.memory[..] {
            [] => sizes(&read.sampled, &options),
            memory => memory.iter().map(|bytes| bytes.0).collect(),
        };
        let points = points(&read.sampled, &wanted, &options);
        self.output.give(&self.told(&read.sampled, &points))?;
        read.error.map_or(Ok(()), |error| Err(error.into()))
    }

    fn told(&self, sampled: &Sampled, points: &[Point]) -> Told {
        let stopped = stop::note();
        let (requests, keys, share) = (sampled.requests(), sampled.keys(), sampled.share() * 100.0);
        let of = format!("{requests} requests; a sample of {keys} keys, {share:.2} % of all{stopped}");
        let load = format!("{} ({of})", self.requests.in_words());
        let table = table(points);
        let text = format!("{load}\n\n{}", table.text());
        let json_of = |point: &Point| {
            let said = ("said_bytes", point.said.into());
            Json::object([("memory", point.memory.into()), said, ("hit_ratio", point.hit_ratio.into())])
        };
        let all = Json::List(points.iter().map(json_of).collect());
        let json = Json::object([("load", load.as_str().into()), ("points", all)]);
        Told { load, text, json, pictures: vec![of_curve(points)], tables: vec![table] }
    }
}

fn table(points: &[Point]) -> Table {
    let row = |point: &Point| {
        let hits = format!("{:.2} %", point.hit_ratio * 100.0);
        vec![Bytes(point.memory).to_string(), Bytes(point.said).to_string(), hits]
    };
    Table {
        title: "Hits by memory, without flash".to_string(),
        head: ["memory", "said", "hits"].map(str::to_string).to_vec(),
        rows: points.iter().map(row).collect(),
    }
}
