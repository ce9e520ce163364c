//! A service of two processes before PostgreSQL, and what each way to tell them of each other's changes comes to.
//!
//!     replicas make PORT ROWS                                 makes the tables
//!     replicas trial WAY HARM SECONDS ROWS PORT SERVERPORT    two processes under load, each read of which is judged
//!
//! The database is at 127.0.0.1:PORT, of the user that `REPLICAS_DATABASE` names (`user=postgres dbname=postgres`). `run` beside this
//! begins one of its own, and a kilambosetryd, and makes all trials. `REPLICAS_NETWORK` is the name of a network that `network` beside
//! this has made, where packets are to be dropped.
//!
//! WAY is how the processes hear of each other's changes:
//!   alone      not at all: each has a cache, and deletes there what it has changed itself
//!   notices    PostgreSQL tells of each change (NOTIFY by a trigger); a heartbeat each second, and `clear` behind each break
//!   careless   the same without the heartbeat and without the clear
//!   owner      they needn't: each row is read and changed at one process, and while that is away at none
//!   handed     the same, but while it is away the other one has its rows
//!   server     there is one cache, in kilambosetryd; keys wait in a table for their delete
//!   unswept    the same, and nobody deletes the keys of a process that has died
//! HARM is what happens to them every seven seconds: `none`; `cut` or `lost`, the connection of who listens is closed, or forwards
//! nothing any more without a word; `dropped`, all packets between the database and one of the processes are dropped for five seconds;
//! `death`, a process ends between a commit and its delete, and another begins.
//!
//! The status is 1 where a read with `notices` was older than a change that was answered three seconds before it began, or than one of
//! which the process had been told; or one with `server` than a change that was answered five seconds before, or at all though
//! nobody died; or one with `owner` than any change that was answered. With the other four it is 1 where no read was beyond that
//! limit: then the trial would show nothing.
mod notices;
mod postgres;
mod proxy;
mod server;
mod service;
mod trial;

use service::{Settings, Way};
use std::process::ExitCode;
use std::{env, error};
use trial::{Came, Harm, Trial};

// Whether it came as the way promises.
fn is_right(way: Way, harm: Harm, came: &Came) -> bool {
    let none_is_older = came.beyond == 0 && came.behind == 0;
    came.reads > 0
        && match way {
            Way::Notices => none_is_older,
            Way::Server => none_is_older && (harm == Harm::Death || came.stale == 0),
            Way::Owner => none_is_older && came.stale == 0,
            Way::Alone | Way::Careless | Way::Handed | Way::Unswept => came.beyond > 0,
        }
}

fn main() -> Result<ExitCode, Box<dyn error::Error>> {
    let words: Vec<String> = env::args().skip(1).collect();
    let words: Vec<&str> = words.iter().map(String::as_str).collect();
    let database = env::var("REPLICAS_DATABASE").unwrap_or_else(|_| "user=postgres dbname=postgres".to_string());
    match words[..] {
        ["make", port, rows] => service::make(&format!("host=127.0.0.1 port={port} {database}"), rows.parse()?)?,
        ["serve", way, host, database, listens_at, port, rows] => service::serve(Settings {
            way: Way::named(way).ok_or("no such way")?,
            host: host.to_string(),
            database: database.to_string(),
            listens_at: listens_at.to_string(),
            port: port.parse()?,
            rows: rows.parse()?,
        })?,
        ["trial", way, harm, seconds, rows, database_port, server_port] => {
            let trial = Trial {
                way: Way::named(way).ok_or("no such way")?,
                harm: Harm::named(harm).ok_or("no such harm")?,
                seconds: seconds.parse()?,
                rows: rows.parse()?,
                database_port: database_port.parse()?,
                server_port: server_port.parse()?,
                database,
                network: env::var("REPLICAS_NETWORK").unwrap_or_default(),
            };
            let came = trial.run()?;
            println!("{way:9} {harm:8} {came}");
            return Ok(ExitCode::from(u8::from(!is_right(trial.way, trial.harm, &came))));
        }
        _ => return Err("replicas make PORT ROWS, or trial WAY HARM SECONDS ROWS PORT SERVERPORT".into()),
    }
    Ok(ExitCode::SUCCESS)
}
