//! What other processes change is told here: the part that is to be copied into a service.
use crate::postgres::{Connection, Failed};
use kilambosetry::{Clock, HybridCache};
use std::convert::Infallible;
use std::sync::atomic::{AtomicU64, Ordering::SeqCst};
use std::thread;
use std::time::{Duration, Instant};

/// How often the database is asked whether the connection stands.
const HEARTBEAT: Duration = Duration::from_secs(1);
/// How long rows are served from the cache behind a question that was answered. No row that is served is staler than that.
pub const LIMIT: Duration = Duration::from_secs(3);

/// The trigger that tells of each changed row, as its transaction commits: `KEY VERSION`.
pub const TRIGGER: [&str; 3] = [
    "create or replace function tell_change() returns trigger language plpgsql as
         $$ begin perform pg_notify('changes', new.id || ' ' || new.version); return null; end $$",
    "drop trigger if exists tell_change on item",
    "create trigger tell_change after insert or update on item for each row execute function tell_change()",
];

/// Whether it is known what others have changed. By the cache's clock, which goes on while the machine sleeps: a row isn't served
/// because nobody noticed the time.
pub struct Watch {
    clock: Clock,
    until: AtomicU64,
}

impl Watch {
    /// Nothing is known yet.
    pub fn new() -> Watch {
        Watch { clock: Clock::system(), until: AtomicU64::new(0) }
    }

    /// Whether rows may be served from the cache, and stored there. Else they are to be read from the database, and not stored.
    pub fn is_kept(&self) -> bool {
        self.clock.now() < self.until.load(SeqCst)
    }
}

/// Listens for good: deletes each key of which it is told, and calls `told` with it behind that. A thread of its own.
pub fn listen(info: &str, cache: &HybridCache, watch: &Watch, told: impl Fn(&str)) {
    loop {
        let Err(failed) = try_listen(info, cache, watch, &told);
        watch.until.store(0, SeqCst);
        eprintln!("{failed}: no row is served from the cache");
        thread::sleep(Duration::from_millis(100));
    }
}

fn try_listen(info: &str, cache: &HybridCache, watch: &Watch, told: &impl Fn(&str)) -> Result<Infallible, Failed> {
    let mut connection = Connection::open(info)?;
    connection.run("listen changes", &[], LIMIT)?;
    // From now on each commit is told. What was committed while nobody listened isn't known: so all is forgotten, also what is being
    // loaded. (Until the first heartbeat is answered nothing is served or stored.)
    cache.clear();
    loop {
        // The answer comes behind the notices of all that was committed before it was asked for. So until `LIMIT` from there on no row
        // is staler than `LIMIT`.
        let (asked, second) = (Instant::now(), watch.clock.now());
        connection.run("select 1", &[], LIMIT)?;
        forget(&mut connection, cache, told);
        watch.until.store(second + LIMIT.as_secs(), SeqCst);
        while asked.elapsed() < HEARTBEAT {
            connection.wait(HEARTBEAT.saturating_sub(asked.elapsed()))?;
            forget(&mut connection, cache, told);
        }
    }
}

// Deletes the keys of which was told. (What is loaded since then is of behind the commit: a notice comes once that is seen.)
fn forget(connection: &mut Connection, cache: &HybridCache, told: &impl Fn(&str)) {
    while let Some(notice) = connection.notice() {
        let key = notice.split(' ').next().unwrap_or_default();
        cache.invalidate(key.as_bytes());
        told(&notice);
    }
}
