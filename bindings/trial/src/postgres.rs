//! PostgreSQL, over its C library.
use crate::database::{value_of, Database};
use std::ffi::{c_char, c_int, c_void, CStr, CString};
use std::ptr;

#[link(name = "pq")]
extern "C" {
    fn PQconnectdb(info: *const c_char) -> *mut c_void;
    fn PQstatus(connection: *const c_void) -> c_int;
    fn PQerrorMessage(connection: *const c_void) -> *const c_char;
    fn PQfinish(connection: *mut c_void);
    fn PQexecParams(
        connection: *mut c_void,
        command: *const c_char,
        count: c_int,
        types: *const u32,
        values: *const *const c_char,
        lengths: *const c_int,
        formats: *const c_int,
        result_format: c_int,
    ) -> *mut c_void;
    fn PQprepare(
        connection: *mut c_void,
        name: *const c_char,
        command: *const c_char,
        count: c_int,
        types: *const u32,
    ) -> *mut c_void;
    fn PQexecPrepared(
        connection: *mut c_void,
        name: *const c_char,
        count: c_int,
        values: *const *const c_char,
        lengths: *const c_int,
        formats: *const c_int,
        result_format: c_int,
    ) -> *mut c_void;
    fn PQresultStatus(result: *const c_void) -> c_int;
    fn PQntuples(result: *const c_void) -> c_int;
    fn PQgetvalue(result: *const c_void, row: c_int, column: c_int) -> *const c_char;
    fn PQclear(result: *mut c_void);
}

const COMMAND_OK: c_int = 1;
const TUPLES_OK: c_int = 2;

/// A connection, for one thread at a time.
struct Connection(*mut c_void);

// SAFETY: the library lets a connection be used by any thread, by one at a time, and each call takes `&mut self`.
unsafe impl Send for Connection {}

/// What a command answered.
struct Answer(*mut c_void);

impl Drop for Answer {
    fn drop(&mut self) {
        // SAFETY: the result is this one's own.
        unsafe { PQclear(self.0) }
    }
}

impl Answer {
    // The text of a column of the first row.
    fn text(&self, column: c_int) -> String {
        // SAFETY: there is a row, and the text lives as long as the result.
        unsafe {
            assert!(PQntuples(self.0) > 0, "there is no such row");
            CStr::from_ptr(PQgetvalue(self.0, 0, column)).to_string_lossy().into_owned()
        }
    }
}

fn word(text: &str) -> CString {
    CString::new(text).expect("no zero in it")
}

impl Connection {
    fn open() -> Connection {
        // SAFETY: the text lives through the call.
        let connection = Connection(unsafe { PQconnectdb(word("").as_ptr()) });
        // SAFETY: the connection is open, or says why it isn't.
        assert_eq!(unsafe { PQstatus(connection.0) }, 0, "{}", connection.error());
        connection
    }

    fn error(&self) -> String {
        // SAFETY: the text lives as long as the connection.
        unsafe { CStr::from_ptr(PQerrorMessage(self.0)) }.to_string_lossy().into_owned()
    }

    fn answer(&self, result: *mut c_void) -> Answer {
        let answer = Answer(result);
        // SAFETY: the result is this answer's own (or none, which has failed).
        let status = unsafe { PQresultStatus(answer.0) };
        assert!(status == COMMAND_OK || status == TUPLES_OK, "{}", self.error());
        answer
    }

    fn run(&mut self, command: &str) -> Answer {
        let command = word(command);
        // SAFETY: the text lives through the call, and there are no values.
        let result =
            unsafe { PQexecParams(self.0, command.as_ptr(), 0, ptr::null(), ptr::null(), ptr::null(), ptr::null(), 0) };
        self.answer(result)
    }

    fn prepare(&mut self, name: &str, command: &str) {
        let (name, command) = (word(name), word(command));
        // SAFETY: both texts live through the call.
        let result = unsafe { PQprepare(self.0, name.as_ptr(), command.as_ptr(), 1, ptr::null()) };
        self.answer(result);
    }

    fn run_prepared(&mut self, name: &CStr, row: usize) -> Answer {
        let value = word(&row.to_string());
        let values = [value.as_ptr()];
        // SAFETY: the texts live through the call, and there is one value.
        let result = unsafe { PQexecPrepared(self.0, name.as_ptr(), 1, values.as_ptr(), ptr::null(), ptr::null(), 0) };
        self.answer(result)
    }
}

impl Drop for Connection {
    fn drop(&mut self) {
        // SAFETY: the connection is this one's own.
        unsafe { PQfinish(self.0) }
    }
}

impl Database for Connection {
    fn load(&mut self, row: usize) -> Vec<u8> {
        let answer = self.run_prepared(c"load", row);
        value_of(row, answer.text(0).parse().expect("a version"))
    }

    fn change(&mut self, row: usize) -> u64 {
        self.run_prepared(c"change", row).text(0).parse().expect("a version")
    }
}

/// So many connections, to a new table of so many rows. Each row has its version, and as much text as its value has bytes.
pub fn open(threads: u64, rows: usize) -> Vec<Box<dyn Database>> {
    let mut first = Connection::open();
    first.run("drop table if exists trial_rows");
    first.run("create table trial_rows (id integer primary key, version bigint not null, body text not null)");
    first.run(&format!(
        "insert into trial_rows select id, 0, repeat('x', 116 + id % 1400) from generate_series(0, {}) as id",
        rows - 1
    ));
    first.run("analyze trial_rows");
    let connect = |_| {
        let mut connection = Connection::open();
        connection.prepare("load", "select version, body from trial_rows where id = $1::integer");
        let change = "update trial_rows set version = version + 1 where id = $1::integer returning version";
        connection.prepare("change", change);
        Box::new(connection) as Box<dyn Database>
    };
    (0..threads).map(connect).collect()
}
