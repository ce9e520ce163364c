//! A service of which several processes run: rows of PostgreSQL, through a cache.
use crate::notices::{self, Watch};
use crate::postgres::{Connection, Database, Failed};
use crate::server::{self, Got, Server};
use kilambosetry::{HybridCache, LoadError, Options};
use std::io::{self, BufRead, BufReader, Write};
use std::net::{TcpListener, TcpStream};
use std::sync::atomic::{AtomicU64, Ordering::SeqCst};
use std::sync::Arc;
use std::time::Duration;
use std::{error, process, thread};

const TTL: u32 = 300;
const LIMIT: Duration = Duration::from_secs(10);

type Anything = Box<dyn error::Error>;

/// How the processes hear of each other's changes.
#[derive(Clone, Copy, Debug, PartialEq, Eq)]
pub enum Way {
    /// They don't: each has a cache, and deletes there what it has changed itself.
    Alone,
    /// By notices, with a heartbeat, and a clear behind each break.
    Notices,
    /// The same without the heartbeat and without the clear.
    Careless,
    /// They needn't: each row is read and changed at one process, and while that is away at none.
    Owner,
    /// The same, but while it is away the other one has its rows.
    Handed,
    /// There is one cache, in a server, and keys wait in a table for their delete.
    Server,
    /// The same, and nobody deletes the keys of who has died.
    Unswept,
}

impl Way {
    pub fn named(name: &str) -> Option<Way> {
        let all = [Way::Alone, Way::Notices, Way::Careless, Way::Owner, Way::Handed, Way::Server, Way::Unswept];
        all.into_iter().find(|way| format!("{way:?}").to_lowercase() == name)
    }

    pub fn has_server(self) -> bool {
        matches!(self, Way::Server | Way::Unswept)
    }

    pub fn has_owners(self) -> bool {
        matches!(self, Way::Owner | Way::Handed)
    }
}

/// What a process is told.
pub struct Settings {
    pub way: Way,
    /// The address to serve at.
    pub host: String,
    /// Where the database is, and where it is for who listens.
    pub database: String,
    pub listens_at: String,
    /// The server's.
    pub port: u16,
    pub rows: usize,
}

/// A process of the service.
struct Service {
    settings: Settings,
    cache: HybridCache,
    watch: Watch,
    // of each row the version of which this process was told last
    told: Vec<AtomicU64>,
}

/// Serves, each connection by a thread, from a port that it prints.
pub fn serve(settings: Settings) -> Result<(), Anything> {
    kilambosetry::share_one_heap();
    let options = Options { memory: 20_000_000, mean_key: 6, mean_value: 540, ..Options::default() };
    let told = (0..settings.rows).map(|_| AtomicU64::new(0)).collect();
    let service = Service { settings, cache: HybridCache::in_memory(&options)?, watch: Watch::new(), told };
    let service = Arc::new(service);
    let other = Arc::clone(&service);
    thread::spawn(move || other.keep());
    let listener = TcpListener::bind((service.settings.host.as_str(), 0))?;
    println!("{}", listener.local_addr()?.port());
    for stream in listener.incoming() {
        let (stream, service) = (stream?, Arc::clone(&service));
        thread::spawn(move || {
            if let Err(error) = service.answer(&stream) {
                eprintln!("a connection ends: {error}");
            }
        });
    }
    Ok(())
}

impl Service {
    // What goes on beside the requests.
    fn keep(&self) {
        let told = |notice: &str| {
            let words: Vec<usize> = notice.split(' ').filter_map(|word| word.parse().ok()).collect();
            if let [row, version] = words[..] {
                self.told[row].fetch_max(version as u64, SeqCst);
            }
        };
        match self.settings.way {
            Way::Notices => notices::listen(&self.settings.listens_at, &self.cache, &self.watch, told),
            Way::Careless => self.listen_carelessly(told),
            Way::Server => self.sweep(),
            Way::Alone | Way::Owner | Way::Handed | Way::Unswept => {}
        }
    }

    // What is wrong with this: where the connection breaks, notices are missed, and nobody knows.
    fn listen_carelessly(&self, told: impl Fn(&str)) {
        while let Ok(mut connection) = Connection::open(&self.settings.listens_at) {
            let mut is_up = connection.run("listen changes", &[], LIMIT).is_ok();
            while is_up {
                while let Some(notice) = connection.notice() {
                    self.cache.invalidate(notice.split(' ').next().unwrap_or_default().as_bytes());
                    told(&notice);
                }
                is_up = connection.wait(LIMIT).is_ok();
            }
        }
    }

    fn sweep(&self) {
        loop {
            let swept = || -> Result<(), Anything> {
                let mut database = Database::at(&self.settings.database);
                let mut server = Server::open(self.settings.port)?;
                loop {
                    server::end_changes_of_others(&mut server, &mut database)?;
                    thread::sleep(Duration::from_secs(1));
                }
            };
            if let Err(error) = swept() {
                eprintln!("keys wait: {error}");
            }
            thread::sleep(Duration::from_millis(100));
        }
    }

    // `read ROW` is answered by `VERSION BEHIND` (whether it is older than what this process was told before), `change ROW` by the new
    // version, `version ROW` by the database's; `die ROW` is a change behind whose commit the process ends.
    fn answer(&self, stream: &TcpStream) -> Result<(), Anything> {
        stream.set_nodelay(true)?;
        let mut database = Database::at(&self.settings.database);
        let mut server = self.settings.way.has_server().then(|| Server::open(self.settings.port)).transpose()?;
        let (mut reader, mut line) = (BufReader::new(stream), String::new());
        while reader.read_line(&mut line)? > 0 {
            let (word, row) = line.trim_end().split_once(' ').ok_or("no row")?;
            let answer = match word {
                "read" => {
                    let told = self.told[row.parse::<usize>()?].load(SeqCst);
                    let version = version_of(&self.read(&mut database, server.as_mut(), row)?);
                    format!("{version} {}\n", u8::from(version < told))
                }
                "version" => format!("{}\n", version_of(&load(&mut database, row)?)),
                _ => format!("{}\n", self.change(&mut database, server.as_mut(), row, word == "die")?),
            };
            (&*stream).write_all(answer.as_bytes())?;
            line.clear();
        }
        Ok(())
    }

    fn read(&self, database: &mut Database, server: Option<&mut Server>, row: &str) -> Result<String, Anything> {
        if let Some(server) = server {
            return self.read_by_server(database, server, row);
        }
        if self.settings.way == Way::Notices && !self.watch.is_kept() {
            return Ok(load(database, row)?); // straight from the database, and not stored
        }
        let loaded = self.cache.get_or_load(row.as_bytes(), TTL, || load(database, row));
        match loaded {
            Ok(row) => Ok(String::from_utf8(row.into_vec())?),
            Err(LoadError::Load(failed)) => Err(failed.into()),
            Err(error) => Err(error.to_string().into()),
        }
    }

    fn read_by_server(&self, database: &mut Database, server: &mut Server, row: &str) -> Result<String, Anything> {
        Ok(match server.get(row)? {
            Got::Row(row) => row,
            Got::Taken => load(database, row)?,
            Got::Lease(lease) => {
                let loaded = load(database, row)?;
                server.store(row, &loaded, &lease)?;
                loaded
            }
        })
    }

    fn change(
        &self,
        database: &mut Database,
        server: Option<&mut Server>,
        row: &str,
        dies: bool,
    ) -> Result<String, Anything> {
        let mut commit = |command| {
            let rows = database.run(command, &[row], LIMIT)?;
            if dies {
                process::exit(9);
            }
            rows.into_iter().next().ok_or("no such row".into())
        };
        if let Some(server) = server {
            let answer: Result<Vec<String>, Anything> = commit(server::CHANGE);
            let [version, number] = &answer?[..] else { return Err("no version".into()) };
            server::end_change(server, database, row, number)?;
            return Ok(version.clone());
        }
        let change = "update item set version = version + 1 where id = $1::integer returning version";
        let answer: Result<Vec<String>, Anything> = self.cache.change(row.as_bytes(), || commit(change));
        Ok(answer?.concat())
    }
}

/// The version and the body of a row.
fn load(database: &mut Database, row: &str) -> Result<String, Failed> {
    let rows = database.run("select version, body from item where id = $1::integer", &[row], LIMIT)?;
    Ok(rows.concat().join(" "))
}

fn version_of(row: &str) -> u64 {
    row.split(' ').next().and_then(|word| word.parse().ok()).unwrap_or(0)
}

/// Makes the tables of so many rows.
pub fn make(database: &str, rows: usize) -> Result<(), Failed> {
    let limit = Duration::from_secs(600);
    let mut database = Database::at(database);
    let rows = (rows - 1).to_string();
    database.run("drop table if exists item", &[], limit)?;
    database.run(
        "create table item (id integer primary key, version bigint not null, body text not null)",
        &[],
        limit,
    )?;
    let fill = "insert into item select id, 0, repeat('x', 540) from generate_series(0, $1::integer) as id";
    database.run(fill, &[&rows], limit)?;
    for command in notices::TRIGGER.iter().chain(&server::TABLE) {
        database.run(command, &[], limit)?;
    }
    Ok(())
}

/// A client of a process: a connection to it.
pub struct Client(BufReader<TcpStream>);

impl Client {
    pub fn open(host: &str, port: u16, patience: Duration) -> io::Result<Client> {
        let stream = TcpStream::connect((host, port))?;
        stream.set_nodelay(true)?;
        stream.set_read_timeout(Some(patience))?;
        Ok(Client(BufReader::new(stream)))
    }

    /// Asks one line, and answers the numbers of the next.
    pub fn ask(&mut self, word: &str, row: usize) -> io::Result<Vec<u64>> {
        self.0.get_mut().write_all(format!("{word} {row}\n").as_bytes())?;
        let mut line = String::new();
        match self.0.read_line(&mut line)? {
            0 => Err(io::ErrorKind::UnexpectedEof.into()),
            _ => line.split_whitespace().map(|word| word.parse().map_err(io::Error::other)).collect(),
        }
    }
}
