//! A load by Zipf's law over one server of memcached's protocol.
//!
//!     load ADDRESS KEYS VALUE CONNECTIONS DEPTH SECONDS [SHARE]
//!
//! Each connection is a thread's own. It asks for DEPTH keys at once, drawn by Zipf 0.99 out of KEYS, and stores those that it
//! misses, with values of VALUE bytes. So many per cent of the operations are sets from the start (SHARE, 0 where it isn't given). All
//! keys are stored once before the clock runs. Each value begins with its key: an answer that doesn't is wrong, and ends the load.
use std::io::{BufRead, BufReader, Read, Write};
use std::net::TcpStream;
use std::time::{Duration, Instant};
use std::{env, process, thread};

const FILLED_AT_ONCE: usize = 64;

#[derive(Clone)]
struct Load {
    address: String,
    keys: usize,
    value: usize,
    connections: usize,
    depth: usize,
    seconds: u64,
    share: u64,
}

/// What a connection did.
#[derive(Default)]
struct Did {
    gets: u64,
    hits: u64,
    sets: u64,
    nanoseconds: Vec<u32>,
}

/// The next of a row of numbers by chance, of 31 bits.
fn next(seed: &mut u64) -> u64 {
    *seed = seed.wrapping_mul(6_364_136_223_846_793_005).wrapping_add(1_442_695_040_888_963_407);
    *seed >> 33
}

/// The shares of the keys and of those before them, by Zipf's law.
fn zipf(keys: usize) -> Vec<f64> {
    let mut sum = 0.0;
    let sums = (1..=keys).map(|key| {
        sum += (key as f64).powf(-0.99);
        sum
    });
    let sums: Vec<f64> = sums.collect();
    sums.iter().map(|it| it / sum).collect()
}

fn draw(shares: &[f64], seed: &mut u64) -> usize {
    let drawn = (next(seed) as f64 + next(seed) as f64 / (1u64 << 31) as f64) / (1u64 << 31) as f64;
    shares.partition_point(|share| *share < drawn).min(shares.len() - 1)
}

fn name(key: usize) -> String {
    format!("key:{key:012}")
}

struct Client<'a> {
    load: &'a Load,
    stream: BufReader<TcpStream>,
    request: Vec<u8>,
    answer: Vec<u8>,
}

impl Client<'_> {
    fn of(load: &Load) -> Client<'_> {
        let stream = TcpStream::connect(&load.address).expect("the server listens");
        stream.set_nodelay(true).expect("it has no delay");
        Client { load, stream: BufReader::with_capacity(1 << 18, stream), request: Vec::new(), answer: Vec::new() }
    }

    fn send(&mut self) {
        self.stream.get_mut().write_all(&self.request).expect("it takes what is sent");
        self.request.clear();
    }

    fn line(&mut self) -> &[u8] {
        self.answer.clear();
        self.stream.read_until(b'\n', &mut self.answer).expect("it answers");
        &self.answer
    }

    fn add_set(&mut self, key: usize) {
        let (key, length) = (name(key), self.load.value);
        write!(self.request, "set {key} 0 0 {length}\r\n{key}").expect("memory takes it");
        self.request.resize(self.request.len() + length - key.len(), b'.');
        self.request.extend_from_slice(b"\r\n");
    }

    fn set(&mut self, keys: &[usize]) {
        keys.iter().for_each(|key| self.add_set(*key));
        self.send();
        for _ in keys {
            let line = self.line();
            assert!(line == b"STORED\r\n" || line.starts_with(b"SERVER_ERROR"), "{}", line.escape_ascii());
        }
    }

    // Gets the keys, and answers those that are missed.
    fn get(&mut self, keys: &[usize]) -> Vec<usize> {
        for key in keys {
            write!(self.request, "get {}\r\n", name(*key)).expect("memory takes it");
        }
        self.send();
        keys.iter().copied().filter(|key| !self.is_hit(*key)).collect()
    }

    fn is_hit(&mut self, key: usize) -> bool {
        let line = self.line();
        if line == b"END\r\n" {
            return false;
        }
        assert!(line.starts_with(b"VALUE "), "{}", line.escape_ascii());
        let length = self.load.value + b"\r\nEND\r\n".len();
        self.answer.resize(length, 0);
        self.stream.read_exact(&mut self.answer).expect("it sends the value");
        assert!(self.answer.starts_with(name(key).as_bytes()), "the value is another's");
        true
    }

    fn serve(mut self, shares: &[f64], mut seed: u64) -> Did {
        let until = Instant::now() + Duration::from_secs(self.load.seconds);
        let mut did = Did::default();
        while Instant::now() < until {
            let keys: Vec<usize> = (0..self.load.depth).map(|_| draw(shares, &mut seed)).collect();
            let begin = Instant::now();
            if next(&mut seed) % 100 < self.load.share {
                self.set(&keys);
                did.sets += keys.len() as u64;
            } else {
                let missed = self.get(&keys);
                did.gets += keys.len() as u64;
                did.hits += (keys.len() - missed.len()) as u64;
                did.nanoseconds.push(u32::try_from(begin.elapsed().as_nanos()).unwrap_or(u32::MAX));
                self.set(&missed);
                did.sets += missed.len() as u64;
                continue;
            }
            did.nanoseconds.push(u32::try_from(begin.elapsed().as_nanos()).unwrap_or(u32::MAX));
        }
        did
    }
}

fn fill(load: &Load) {
    thread::scope(|scope| {
        for first in 0..4 {
            scope.spawn(move || {
                let mut client = Client::of(load);
                let keys: Vec<usize> = (first..load.keys).step_by(4).collect();
                keys.chunks(FILLED_AT_ONCE).for_each(|some| client.set(some));
            });
        }
    });
}

fn run(load: &Load, shares: &[f64]) -> Did {
    thread::scope(|scope| {
        let serve = |seed| scope.spawn(move || Client::of(load).serve(shares, seed));
        let all: Vec<_> = (1..=load.connections as u64).map(serve).collect();
        all.into_iter().map(|one| one.join().expect("no connection fails")).fold(Did::default(), |mut sum, did| {
            sum.gets += did.gets;
            sum.hits += did.hits;
            sum.sets += did.sets;
            sum.nanoseconds.extend(did.nanoseconds);
            sum
        })
    })
}

fn main() {
    let words: Vec<String> = env::args().skip(1).collect();
    let number = |at: usize| words.get(at).and_then(|word| word.parse::<usize>().ok());
    let Some((address, [keys, value, connections, depth, seconds])) = words.first().zip(
        [1, 2, 3, 4, 5]
            .map(number)
            .into_iter()
            .collect::<Option<Vec<_>>>()
            .map(|it| [it[0], it[1], it[2], it[3], it[4]]),
    ) else {
        eprintln!("load ADDRESS KEYS VALUE CONNECTIONS DEPTH SECONDS [SHARE]");
        process::exit(2)
    };
    let share = number(6).unwrap_or(0) as u64;
    let load = Load { address: address.clone(), keys, value, connections, depth, seconds: seconds as u64, share };
    let shares = zipf(keys);
    fill(&load);
    let begin = Instant::now();
    let mut did = run(&load, &shares);
    let took = begin.elapsed().as_secs_f64();
    did.nanoseconds.sort_unstable();
    let micros = |share: f64| {
        let at = (did.nanoseconds.len() as f64 * share) as usize;
        did.nanoseconds.get(at).map_or(0.0, |nanoseconds| f64::from(*nanoseconds) / 1e3)
    };
    println!(
        "{:.0} operations/s, p50 {:.0} us, p99 {:.0} us, {:.1} % hits",
        (did.gets + did.sets) as f64 / took,
        micros(0.5),
        micros(0.99),
        100.0 * did.hits as f64 / did.gets.max(1) as f64
    );
}
