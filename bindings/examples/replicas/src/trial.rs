//! Clients of two processes, who know which version of each row was committed when, and judge each read.
use crate::notices;
use crate::proxy::Proxy;
use crate::service::{Client, Way};
use std::collections::VecDeque;
use std::io::{self, BufRead, BufReader};
use std::process::{Child, Command, Stdio};
use std::sync::atomic::{AtomicBool, AtomicU16, Ordering::SeqCst};
use std::sync::{Mutex, PoisonError};
use std::time::{Duration, Instant};
use std::{env, fmt, thread};

const CLIENTS: u64 = 8;
// A row that is read often, and that nobody changes but who dies.
const OF_THE_DYING: usize = 5;
// How long packets are dropped: for longer than the limit of notices.
const DROPPED: Duration = Duration::from_secs(5);
// How long nobody has the rows of an owner that has died.
const AWAY: Duration = Duration::from_secs(1);
// A process behind the router of `network`, as its clients see it, and the database as it sees that.
const BEHIND_ROUTER: &str = "10.77.3.1";
const DATABASE_THERE: &str = "10.77.1.1";
const HERE: &str = "127.0.0.1";
// How long a version is remembered; by far longer than any row may be stale.
const REMEMBERED: Duration = Duration::from_secs(60);

/// What is tried.
pub struct Trial {
    pub way: Way,
    pub harm: Harm,
    pub seconds: u64,
    pub rows: usize,
    /// The database's, and the server's port.
    pub database_port: u16,
    pub server_port: u16,
    pub database: String,
    /// The name of the network where packets can be dropped.
    pub network: String,
}

/// What is done to them meanwhile, every few seconds.
#[derive(Clone, Copy, Debug, PartialEq, Eq)]
pub enum Harm {
    None,
    /// The connection of who listens is closed.
    Cut,
    /// It forwards nothing any more, and nobody is told.
    Lost,
    /// All packets between the database and the second process are dropped for a time.
    Dropped,
    /// A process ends between a commit and its delete, and another begins.
    Death,
}

impl Harm {
    pub fn named(name: &str) -> Option<Harm> {
        let all = [Harm::None, Harm::Cut, Harm::Lost, Harm::Dropped, Harm::Death];
        all.into_iter().find(|harm| format!("{harm:?}").to_lowercase() == name)
    }
}

/// What came of it.
#[derive(Default)]
pub struct Came {
    pub reads: u64,
    pub changes: u64,
    pub failed: u64,
    /// Reads that were older than a version that was answered before the read began.
    pub stale: u64,
    /// Those that were older than one of which the process had been told.
    pub behind: u64,
    /// Those that were older than one that was answered by more than the limit before.
    pub beyond: u64,
    /// The longest time since a row that was found had been replaced.
    pub oldest: Duration,
}

impl Came {
    fn add(mut self, other: &Came) -> Came {
        self.reads += other.reads;
        self.changes += other.changes;
        self.failed += other.failed;
        self.stale += other.stale;
        self.behind += other.behind;
        self.beyond += other.beyond;
        self.oldest = self.oldest.max(other.oldest);
        self
    }
}

impl fmt::Display for Came {
    fn fmt(&self, f: &mut fmt::Formatter<'_>) -> fmt::Result {
        let Came { reads, changes, failed, stale, behind, beyond, oldest } = self;
        write!(
            f,
            "{reads} reads, {changes} changes, {failed} failed; {stale} stale, for {oldest:.2?} at most; \
             {behind} behind a notice, {beyond} beyond the limit"
        )
    }
}

// The versions of a row that were answered, and when.
#[derive(Default)]
struct Row(Mutex<VecDeque<(Instant, u64)>>);

impl Row {
    fn answered(&self, version: u64) {
        let (mut versions, now) = (self.0.lock().unwrap_or_else(PoisonError::into_inner), Instant::now());
        while versions.front().is_some_and(|(when, _)| when.elapsed() > REMEMBERED) {
            versions.pop_front();
        }
        versions.push_back((now, version));
    }

    // How long before this moment the oldest version was answered that is newer than this one.
    fn staleness(&self, version: u64, moment: Instant) -> Option<Duration> {
        let versions = self.0.lock().unwrap_or_else(PoisonError::into_inner);
        let newer = versions.iter().filter(|(when, newer)| *newer > version && *when < moment);
        newer.map(|(when, _)| moment - *when).max()
    }
}

// The two processes, and what their clients share.
struct Running<'a> {
    trial: &'a Trial,
    listens_at: u16,
    ports: [AtomicU16; 2],
    rows: Vec<Row>,
    shares: Vec<f64>,
    ends: AtomicBool,
}

impl Trial {
    // How stale a row may be: by notices, what holds of each; by a server, what a sweep each second surely comes to.
    fn limit(&self) -> Duration {
        match self.way.has_server() {
            true => Duration::from_secs(5),
            false => notices::LIMIT,
        }
    }

    /// Does it.
    pub fn run(&self) -> io::Result<Came> {
        let (proxy, listens_at) = Proxy::open(self.database_port)?;
        let running = Running {
            trial: self,
            listens_at,
            ports: Default::default(),
            rows: (0..self.rows).map(|_| Row::default()).collect(),
            shares: shares(self.rows),
            ends: AtomicBool::new(false),
        };
        let mut children = [running.start(0)?, running.start(1)?];
        let came = thread::scope(|scope| {
            let running = &running;
            let client = |number| scope.spawn(move || running.be_client(number, number as usize % 2));
            let clients: Vec<_> = (0..CLIENTS).map(client).collect();
            let harmed = running.harm(proxy, &mut children);
            running.ends.store(true, SeqCst);
            harmed.expect("it is harmed as it is to be");
            clients.into_iter().map(|client| client.join().expect("no client panics")).collect::<Vec<_>>()
        });
        for mut child in children {
            let _ = child.kill();
            child.wait()?;
        }
        Ok(came.iter().fold(Came::default(), |sum, one| sum.add(one)))
    }
}

impl Running<'_> {
    // Starts a process, and notes its port.
    fn start(&self, number: usize) -> io::Result<Child> {
        let Trial { way, rows, database, database_port, server_port, network, .. } = self.trial;
        let host = self.host(number);
        let info = |host: &str, port: &u16| format!("host={host} port={port} {database}");
        let (mut command, infos) = if host == HERE {
            (Command::new(env::current_exe()?), [info(HERE, database_port), info(HERE, &self.listens_at)])
        } else {
            let mut command = Command::new("ip");
            command.args(["netns", "exec", &format!("{network}-process")]).arg(env::current_exe()?);
            (command, [(); 2].map(|()| info(DATABASE_THERE, database_port)))
        };
        command.args(["serve", &format!("{way:?}").to_lowercase(), host]).args(infos);
        command.args([server_port.to_string(), rows.to_string()]);
        let mut child = command.stdout(Stdio::piped()).spawn()?;
        let mut line = String::new();
        BufReader::new(child.stdout.take().expect("it is piped")).read_line(&mut line)?;
        self.ports[number].store(line.trim_end().parse().map_err(io::Error::other)?, SeqCst);
        Ok(child)
    }

    // Where the clients of a process find it.
    fn host(&self, number: usize) -> &'static str {
        if self.trial.harm == Harm::Dropped && number == 1 {
            BEHIND_ROUTER
        } else {
            HERE
        }
    }

    fn harm(&self, proxy: &Proxy, children: &mut [Child; 2]) -> io::Result<()> {
        let begin = Instant::now();
        let mut next = Duration::from_secs(3);
        while begin.elapsed() < Duration::from_secs(self.trial.seconds) {
            thread::sleep(Duration::from_millis(50));
            if begin.elapsed() < next {
                continue;
            }
            next += Duration::from_secs(7);
            match self.trial.harm {
                Harm::None => {}
                Harm::Cut => proxy.cut(),
                Harm::Lost => proxy.lose(),
                Harm::Dropped => {
                    self.network("drop")?;
                    thread::sleep(DROPPED);
                    self.network("pass")?;
                }
                Harm::Death => self.kill(children)?,
            }
        }
        Ok(())
    }

    fn network(&self, what: &str) -> io::Result<()> {
        let script = concat!(env!("CARGO_MANIFEST_DIR"), "/network");
        match Command::new(script).args([what, &self.trial.network]).status()?.success() {
            true => Ok(()),
            false => Err(io::Error::other(format!("network {what}: not done"))),
        }
    }

    // Has a process die between the commit of a change and its delete.
    fn kill(&self, children: &mut [Child; 2]) -> io::Result<()> {
        let row = OF_THE_DYING;
        let dying = self.process_of(row, 0);
        self.open(dying)?.ask("die", row).expect_err("it isn't answered");
        children[dying].wait()?;
        self.ports[dying].store(0, SeqCst);
        // what is there now was committed
        let version = self.open(1 - dying)?.ask("version", row)?;
        self.rows[row].answered(version[0]);
        if self.trial.way.has_owners() {
            thread::sleep(AWAY);
        }
        children[dying] = self.start(dying)?;
        Ok(())
    }

    // The process that a client asks for a row: the row's own, where it has one, or else the client's.
    fn process_of(&self, row: usize, of_client: usize) -> usize {
        let owner = row % 2;
        match self.trial.way {
            Way::Handed if self.ports[owner].load(SeqCst) == 0 => 1 - owner,
            way if way.has_owners() => owner,
            _ => of_client,
        }
    }

    // (who waits for a database that isn't to be reached would ask for no row that the process still has)
    fn open(&self, process: usize) -> io::Result<Client> {
        let host = self.host(process);
        let patience = Duration::from_millis(if host == HERE { 60_000 } else { 300 });
        Client::open(host, self.ports[process].load(SeqCst), patience)
    }

    fn be_client(&self, number: u64, of_client: usize) -> Came {
        let (mut came, mut seed) = (Came::default(), 0x9E37_79B9_7F4A_7C15_u64.wrapping_mul(number + 1));
        let mut clients = [None, None];
        while !self.ends.load(SeqCst) {
            let at = drawn(&mut seed);
            let row = self.shares.partition_point(|share| *share < at).min(self.rows.len() - 1);
            let process = self.process_of(row, of_client);
            let client = clients[process].take().map_or_else(|| self.open(process), Ok);
            let asked = client.and_then(|mut client| {
                self.ask(&mut client, row, &mut seed, &mut came)?;
                Ok(client)
            });
            match asked {
                Ok(client) => clients[process] = Some(client),
                Err(_) => {
                    came.failed += 1;
                    thread::sleep(Duration::from_millis(20));
                }
            }
        }
        came
    }

    fn ask(&self, client: &mut Client, row: usize, seed: &mut u64, came: &mut Came) -> io::Result<()> {
        if drawn(seed) < 0.1 && row != OF_THE_DYING {
            let version = client.ask("change", row)?;
            self.rows[row].answered(version[0]);
            came.changes += 1;
            return Ok(());
        }
        let begin = Instant::now();
        let answer = client.ask("read", row)?;
        came.reads += 1;
        came.behind += answer[1];
        if let Some(staleness) = self.rows[row].staleness(answer[0], begin) {
            came.stale += 1;
            came.beyond += u64::from(staleness > self.trial.limit());
            came.oldest = came.oldest.max(staleness);
        }
        Ok(())
    }
}

// A number from 0 to 1 by chance.
fn drawn(seed: &mut u64) -> f64 {
    *seed = seed.wrapping_mul(6_364_136_223_846_793_005).wrapping_add(1_442_695_040_888_963_407);
    (*seed >> 11) as f64 / (1u64 << 53) as f64
}

// Of each row the share of it and of those before it, by Zipf's law with 0.99.
fn shares(rows: usize) -> Vec<f64> {
    let weights: Vec<f64> = (1..=rows).map(|k| (k as f64).powf(-0.99)).collect();
    let all: f64 = weights.iter().sum();
    let mut sum = 0.0;
    weights
        .iter()
        .map(|weight| {
            sum += weight / all;
            sum
        })
        .collect()
}
