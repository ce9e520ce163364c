//! PostgreSQL, over its C library (Debian's libpq-dev). No call waits longer than its limit.
use std::ffi::{c_char, c_int, c_short, c_ulong, c_void, CStr, CString};
use std::time::{Duration, Instant};
use std::{error, fmt, ptr};

#[repr(C)]
struct Notify {
    name: *mut c_char,
    process: c_int,
    payload: *mut c_char,
    next: *mut Notify,
}

#[repr(C)]
struct Polled {
    descriptor: c_int,
    wanted: c_short,
    came: c_short,
}

#[link(name = "pq")]
extern "C" {
    fn PQconnectdb(info: *const c_char) -> *mut c_void;
    fn PQstatus(connection: *const c_void) -> c_int;
    fn PQerrorMessage(connection: *const c_void) -> *const c_char;
    fn PQfinish(connection: *mut c_void);
    fn PQsocket(connection: *const c_void) -> c_int;
    fn PQsendQueryParams(
        connection: *mut c_void,
        command: *const c_char,
        count: c_int,
        types: *const u32,
        values: *const *const c_char,
        lengths: *const c_int,
        formats: *const c_int,
        result_format: c_int,
    ) -> c_int;
    fn PQconsumeInput(connection: *mut c_void) -> c_int;
    fn PQisBusy(connection: *mut c_void) -> c_int;
    fn PQgetResult(connection: *mut c_void) -> *mut c_void;
    fn PQnotifies(connection: *mut c_void) -> *mut Notify;
    fn PQfreemem(block: *mut c_void);
    fn PQresultStatus(result: *const c_void) -> c_int;
    fn PQntuples(result: *const c_void) -> c_int;
    fn PQnfields(result: *const c_void) -> c_int;
    fn PQgetvalue(result: *const c_void, row: c_int, column: c_int) -> *const c_char;
    fn PQclear(result: *mut c_void);
}

extern "C" {
    fn poll(polled: *mut Polled, count: c_ulong, milliseconds: c_int) -> c_int;
}

const COMMAND_OK: c_int = 1;
const TUPLES_OK: c_int = 2;
const INPUT: c_short = 1;

/// Why the database has no answer.
#[derive(Debug)]
pub struct Failed(String);

impl fmt::Display for Failed {
    fn fmt(&self, f: &mut fmt::Formatter<'_>) -> fmt::Result {
        write!(f, "PostgreSQL: {}", self.0.trim_end())
    }
}

impl error::Error for Failed {}

/// A connection, for one thread at a time.
pub struct Connection(*mut c_void);

// SAFETY: the library lets a connection be used by any thread, by one at a time, and each call takes `&mut self`.
unsafe impl Send for Connection {}

impl Connection {
    /// Connects to what the text names (`host=127.0.0.1 port=5432 ..`).
    pub fn open(info: &str) -> Result<Connection, Failed> {
        let info = word(&format!("{info} connect_timeout=2 options='-c client_min_messages=warning'"))?;
        // SAFETY: the text lives through the call.
        let connection = Connection(unsafe { PQconnectdb(info.as_ptr()) });
        // SAFETY: the connection is this one's own.
        match unsafe { PQstatus(connection.0) } {
            0 => Ok(connection),
            _ => Err(connection.failed()),
        }
    }

    /// Runs a command with these values, and answers its rows as text. Where that takes longer than the limit, it has failed, and
    /// the connection is to be closed.
    pub fn run(&mut self, command: &str, values: &[&str], limit: Duration) -> Result<Vec<Vec<String>>, Failed> {
        let until = Instant::now() + limit;
        let command = word(command)?;
        let values = values.iter().map(|value| word(value)).collect::<Result<Vec<_>, _>>()?;
        let pointers: Vec<_> = values.iter().map(|value| value.as_ptr()).collect();
        let (count, none) = (pointers.len() as c_int, ptr::null());
        // SAFETY: all texts live through the call, and there are so many values.
        let sent = unsafe {
            PQsendQueryParams(self.0, command.as_ptr(), count, ptr::null(), pointers.as_ptr(), none, none, 0)
        };
        if sent == 0 {
            return Err(self.failed());
        }
        let mut rows = Vec::new();
        loop {
            // SAFETY: the connection is this one's own, here and below.
            while unsafe { PQisBusy(self.0) } != 0 {
                if !self.wait(until.saturating_duration_since(Instant::now()))? {
                    return Err(Failed("no answer in time".to_string()));
                }
            }
            match unsafe { PQgetResult(self.0) } {
                result if result.is_null() => return Ok(rows),
                result => rows.append(&mut self.rows_of(&Answer(result))?),
            }
        }
    }

    /// Waits for so long until anything has come, and answers whether it has.
    pub fn wait(&mut self, limit: Duration) -> Result<bool, Failed> {
        let milliseconds = limit.as_millis().min(60_000) as c_int + 1;
        // SAFETY: the connection is this one's own, and there is one that is polled.
        let came = unsafe {
            let mut polled = Polled { descriptor: PQsocket(self.0), wanted: INPUT, came: 0 };
            poll(&mut polled, 1, milliseconds)
        };
        // SAFETY: as above.
        if came > 0 && unsafe { PQconsumeInput(self.0) } == 0 {
            return Err(self.failed());
        }
        Ok(came > 0)
    }

    /// A notice that has come: its text.
    pub fn notice(&mut self) -> Option<String> {
        // SAFETY: what is answered is freed once it was copied.
        unsafe {
            let notice = PQnotifies(self.0);
            let payload = notice.as_ref().map(|it| CStr::from_ptr(it.payload).to_string_lossy().into_owned());
            PQfreemem(notice.cast());
            payload
        }
    }

    fn rows_of(&self, answer: &Answer) -> Result<Vec<Vec<String>>, Failed> {
        // SAFETY: the result is the answer's own, and each text lives as long.
        unsafe {
            if !matches!(PQresultStatus(answer.0), COMMAND_OK | TUPLES_OK) {
                return Err(self.failed());
            }
            let text = |row, column| CStr::from_ptr(PQgetvalue(answer.0, row, column)).to_string_lossy().into_owned();
            let row = |row| (0..PQnfields(answer.0)).map(|column| text(row, column)).collect();
            Ok((0..PQntuples(answer.0)).map(row).collect())
        }
    }

    fn failed(&self) -> Failed {
        // SAFETY: the text lives as long as the connection.
        Failed(unsafe { CStr::from_ptr(PQerrorMessage(self.0)) }.to_string_lossy().into_owned())
    }
}

impl Drop for Connection {
    fn drop(&mut self) {
        // SAFETY: the connection is this one's own.
        unsafe { PQfinish(self.0) }
    }
}

/// A connection that is made once it is needed, and anew where it has failed.
pub struct Database {
    info: String,
    connection: Option<Connection>,
}

impl Database {
    pub fn at(info: &str) -> Database {
        Database { info: info.to_string(), connection: None }
    }

    /// As [`Connection::run`].
    pub fn run(&mut self, command: &str, values: &[&str], limit: Duration) -> Result<Vec<Vec<String>>, Failed> {
        let mut connection = self.connection.take().map_or_else(|| Connection::open(&self.info), Ok)?;
        let rows = connection.run(command, values, limit)?;
        self.connection = Some(connection);
        Ok(rows)
    }
}

struct Answer(*mut c_void);

impl Drop for Answer {
    fn drop(&mut self) {
        // SAFETY: the result is this one's own.
        unsafe { PQclear(self.0) }
    }
}

fn word(text: &str) -> Result<CString, Failed> {
    CString::new(text).map_err(|_| Failed("a zero in a text".to_string()))
}
