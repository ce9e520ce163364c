//! One kilambosetryd that all processes share, by memcached's meta commands, with leases; and the keys whose delete is still to come.
use crate::postgres::{Database, Failed};
use std::io::{self, BufRead, BufReader, Read, Write};
use std::net::TcpStream;
use std::thread;
use std::time::Duration;

const TTL: u32 = 300;
const LIMIT: Duration = Duration::from_secs(5);

/// The table of keys whose row was changed, and that aren't known to be deleted yet.
pub const TABLE: [&str; 2] = [
    "drop table if exists waiting",
    "create table waiting (number bigserial primary key, key text not null, since timestamptz not null default now())",
];

/// The change of a row: its key waits in the same transaction, so that it waits wherever the row is changed.
pub const CHANGE: &str =
    "with changed as (update item set version = version + 1 where id = $1::integer returning id, version),
    waits as (insert into waiting (key) select id from changed returning number)
    select version, number from changed, waits";

/// A connection to the server.
pub struct Server {
    port: u16,
    reader: BufReader<TcpStream>,
}

/// What a get comes to.
pub enum Got {
    Row(String),
    /// Load it, and store it by this number.
    Lease(String),
    /// Another loads it: load it too, and don't store it.
    Taken,
}

impl Server {
    pub fn open(port: u16) -> io::Result<Server> {
        let stream = TcpStream::connect(("127.0.0.1", port))?;
        stream.set_nodelay(true)?;
        stream.set_read_timeout(Some(LIMIT))?;
        Ok(Server { port, reader: BufReader::new(stream) })
    }

    fn ask(&mut self, command: &str) -> io::Result<String> {
        self.reader.get_mut().write_all(command.as_bytes())?;
        let mut line = String::new();
        match self.reader.read_line(&mut line)? {
            0 => Err(io::ErrorKind::UnexpectedEof.into()),
            _ => Ok(line.trim_end().to_string()),
        }
    }

    /// The row, or a lease.
    pub fn get(&mut self, key: &str) -> io::Result<Got> {
        let line = self.ask(&format!("mg {key} N30 c v\r\n"))?;
        let mut words = line.split(' ');
        let (Some("VA"), Some(length)) = (words.next(), words.next()) else { return Err(io::Error::other(line)) };
        let mut bytes = vec![0; length.parse::<usize>().map_err(io::Error::other)? + 2];
        self.reader.read_exact(&mut bytes)?;
        let words: Vec<&str> = words.collect();
        if words.contains(&"W") {
            let unique = words.iter().find_map(|word| word.strip_prefix('c'));
            return Ok(Got::Lease(unique.unwrap_or_default().to_string()));
        }
        if words.contains(&"Z") {
            return Ok(Got::Taken);
        }
        bytes.truncate(bytes.len() - 2);
        String::from_utf8(bytes).map(Got::Row).map_err(io::Error::other)
    }

    /// Stores what was loaded, unless the key was deleted since the lease was handed out.
    pub fn store(&mut self, key: &str, row: &str, lease: &str) -> io::Result<()> {
        self.ask(&format!("ms {key} {} C{lease} T{TTL}\r\n{row}\r\n", row.len())).map(drop)
    }

    /// Deletes the key. It is tried until that is answered.
    pub fn delete(&mut self, key: &str) {
        while !self.ask(&format!("md {key}\r\n")).is_ok_and(|line| line == "HD" || line == "NF") {
            thread::sleep(Duration::from_millis(100));
            if let Ok(again) = Server::open(self.port) {
                *self = again;
            }
        }
    }
}

/// Deletes the key of a change, and that it waits. Who dies before that leaves it to whoever comes next.
pub fn end_change(server: &mut Server, database: &mut Database, key: &str, number: &str) -> Result<(), Failed> {
    server.delete(key);
    database.run("delete from waiting where number = $1::bigint", &[number], LIMIT).map(drop)
}

/// Deletes the keys that have waited for a second: those of processes that have died. To be called each second.
pub fn end_changes_of_others(server: &mut Server, database: &mut Database) -> Result<(), Failed> {
    let old = "select key, number from waiting where since < now() - interval '1 second'";
    for row in database.run(old, &[], LIMIT)? {
        if let [key, number] = &row[..] {
            end_change(server, database, key, number)?;
        }
    }
    Ok(())
}
