//! Users in SQLite, over its C library.
use std::error;
use std::ffi::{c_char, c_int, c_void, CStr, CString};
use std::fmt;
use std::path::Path;
use std::ptr;

#[link(name = "sqlite3")]
extern "C" {
    fn sqlite3_open(path: *const c_char, connection: *mut *mut c_void) -> c_int;
    fn sqlite3_close(connection: *mut c_void) -> c_int;
    fn sqlite3_busy_timeout(connection: *mut c_void, milliseconds: c_int) -> c_int;
    fn sqlite3_errmsg(connection: *mut c_void) -> *const c_char;
    fn sqlite3_prepare_v2(
        connection: *mut c_void,
        command: *const c_char,
        length: c_int,
        statement: *mut *mut c_void,
        rest: *mut *const c_char,
    ) -> c_int;
    fn sqlite3_bind_parameter_count(statement: *mut c_void) -> c_int;
    fn sqlite3_bind_int64(statement: *mut c_void, place: c_int, value: i64) -> c_int;
    fn sqlite3_step(statement: *mut c_void) -> c_int;
    fn sqlite3_column_blob(statement: *mut c_void, column: c_int) -> *const u8;
    fn sqlite3_column_bytes(statement: *mut c_void, column: c_int) -> c_int;
    fn sqlite3_finalize(statement: *mut c_void) -> c_int;
}

const OK: c_int = 0;
const ROW: c_int = 100;
const DONE: c_int = 101;

const MAKE: &str = "create table users (number integer primary key, changes integer not null)";
const FILL: &str =
    "insert into users with recursive n(i) as (select 0 union all select i + 1 from n where i + 1 < ?1) select i, 0 from n";
const LOAD: &str = "select changes || ' changes of user ' || number from users where number = ?1";
const CHANGE: &str =
    "update users set changes = changes + 1 where number = ?1 returning changes || ' changes of user ' || number";

/// What SQLite says of a call that failed.
#[derive(Debug)]
pub struct Failed(String);

impl fmt::Display for Failed {
    fn fmt(&self, f: &mut fmt::Formatter<'_>) -> fmt::Result {
        write!(f, "SQLite: {}", self.0)
    }
}

impl error::Error for Failed {}

/// A connection, for one thread at a time.
pub struct Database(*mut c_void);

// SAFETY: the library lets a connection be used by any thread, by one at a time, and each call takes `&mut self`.
unsafe impl Send for Database {}

impl Database {
    /// A new database with so many users.
    pub fn create(path: &Path, users: u32) -> Result<Database, Failed> {
        let mut database = Database::open(path)?;
        database.run("pragma journal_mode = wal", 0)?;
        database.run(MAKE, 0)?;
        database.run(FILL, users)?;
        Ok(database)
    }

    pub fn open(path: &Path) -> Result<Database, Failed> {
        let path = word(path.to_str().expect("the path is UTF-8"));
        let mut database = Database(ptr::null_mut());
        // SAFETY: both live through the call. Where it fails there is a connection too, which says why.
        let status = unsafe { sqlite3_open(path.as_ptr(), &mut database.0) };
        database.check(status, OK)?;
        // SAFETY: the connection is open.
        let status = unsafe { sqlite3_busy_timeout(database.0, 10_000) };
        database.check(status, OK)?;
        database.run("pragma synchronous = normal", 0)?;
        Ok(database)
    }

    /// The user's row, as it is committed at some moment of the call.
    pub fn load(&mut self, user: u32) -> Result<Vec<u8>, Failed> {
        self.run(LOAD, user)
    }

    /// Changes the user's row, which is committed then, and answers it.
    pub fn change(&mut self, user: u32) -> Result<Vec<u8>, Failed> {
        self.run(CHANGE, user)
    }

    // Runs a command to its end, with this number where it takes one, and answers the first text that it finds.
    fn run(&mut self, command: &str, number: u32) -> Result<Vec<u8>, Failed> {
        let text = word(command);
        let mut statement = Statement(ptr::null_mut());
        // SAFETY: all live through the call.
        let status = unsafe { sqlite3_prepare_v2(self.0, text.as_ptr(), -1, &mut statement.0, ptr::null_mut()) };
        self.check(status, OK)?;
        // SAFETY: the statement is prepared, and has the place.
        unsafe {
            if sqlite3_bind_parameter_count(statement.0) == 1 {
                self.check(sqlite3_bind_int64(statement.0, 1, i64::from(number)), OK)?;
            }
        }
        let mut found = Vec::new();
        loop {
            // SAFETY: the statement is prepared.
            match unsafe { sqlite3_step(statement.0) } {
                ROW => found = statement.text(),
                status => return self.check(status, DONE).map(|()| found),
            }
        }
    }

    fn check(&self, status: c_int, wanted: c_int) -> Result<(), Failed> {
        if status == wanted {
            return Ok(());
        }
        // SAFETY: the text lives until the next call on the connection.
        let said = unsafe { CStr::from_ptr(sqlite3_errmsg(self.0)) };
        Err(Failed(said.to_string_lossy().into_owned()))
    }
}

impl Drop for Database {
    fn drop(&mut self) {
        // SAFETY: the connection is this one's own, and no statement of it is left.
        unsafe { sqlite3_close(self.0) };
    }
}

struct Statement(*mut c_void);

impl Statement {
    // The first column of the row that it is at.
    fn text(&self) -> Vec<u8> {
        // SAFETY: the bytes are there until the next step; there are none where the text is null.
        unsafe {
            let text = sqlite3_column_blob(self.0, 0);
            let length = sqlite3_column_bytes(self.0, 0) as usize;
            if text.is_null() {
                Vec::new()
            } else {
                std::slice::from_raw_parts(text, length).to_vec()
            }
        }
    }
}

impl Drop for Statement {
    fn drop(&mut self) {
        // SAFETY: the statement is this one's own.
        unsafe { sqlite3_finalize(self.0) };
    }
}

fn word(text: &str) -> CString {
    CString::new(text).expect("no zero in it")
}
