//! SQLite in memory, with prepared statements. A row has a column for each property; values are bound straight from the
//! records, arrays as the bytes of their elements, and nothing is validated.

use crate::data::Setting;
use reference::integer;
use reference::kind::{is_array, BOOLEAN, DATETIME, NULL, REAL64, STRING};
use reference::record::Table;
use std::ffi::{c_char, c_int, c_void, CString};
use std::ptr::{null, null_mut};

type Text = *const c_char;
type Handle = *mut c_void;

extern "C" {
    fn sqlite3_open(name: Text, db: *mut Handle) -> c_int;
    fn sqlite3_close(db: Handle) -> c_int;
    fn sqlite3_exec(db: Handle, sql: Text, f: *const c_void, x: *const c_void, e: *mut *mut c_char) -> c_int;
    fn sqlite3_prepare_v2(db: Handle, sql: Text, n: c_int, out: *mut Handle, t: *mut Text) -> c_int;
    fn sqlite3_step(statement: Handle) -> c_int;
    fn sqlite3_reset(statement: Handle) -> c_int;
    fn sqlite3_finalize(statement: Handle) -> c_int;
    fn sqlite3_bind_int64(statement: Handle, at: c_int, value: i64) -> c_int;
    fn sqlite3_bind_double(statement: Handle, at: c_int, value: f64) -> c_int;
    fn sqlite3_bind_null(statement: Handle, at: c_int) -> c_int;
    fn sqlite3_bind_text(statement: Handle, at: c_int, text: *const u8, n: c_int, free: *const c_void) -> c_int;
    fn sqlite3_bind_blob(statement: Handle, at: c_int, body: *const u8, n: c_int, free: *const c_void) -> c_int;
    fn sqlite3_column_int64(statement: Handle, column: c_int) -> i64;
    fn sqlite3_libversion() -> Text;
}

const ROW: c_int = 100;
const DONE: c_int = 101;

pub fn version() -> Option<String> {
    Some(unsafe { std::ffi::CStr::from_ptr(sqlite3_libversion()) }.to_string_lossy().into_owned())
}

struct Database(Handle);

/// Prepared; to be dropped before its database.
struct Statement(Handle);

impl Database {
    fn open() -> Database {
        let mut handle = null_mut();
        assert_eq!(unsafe { sqlite3_open(c":memory:".as_ptr(), &mut handle) }, 0);
        Database(handle)
    }

    fn execute(&self, sql: &str) {
        let text = CString::new(sql).unwrap();
        let done = unsafe { sqlite3_exec(self.0, text.as_ptr(), null(), null(), null_mut()) };
        assert_eq!(done, 0, "{sql}");
    }

    fn prepare(&self, sql: &str) -> Statement {
        let (text, mut handle) = (CString::new(sql).unwrap(), null_mut());
        let done = unsafe { sqlite3_prepare_v2(self.0, text.as_ptr(), -1, &mut handle, null_mut()) };
        assert_eq!(done, 0, "{sql}");
        Statement(handle)
    }
}

impl Drop for Database {
    fn drop(&mut self) {
        unsafe { sqlite3_close(self.0) };
    }
}

impl Drop for Statement {
    fn drop(&mut self) {
        unsafe { sqlite3_finalize(self.0) };
    }
}

/// A table with a row for each instance, numbered from 0.
pub struct Rows {
    insertion: Statement,
    database: Database,
}

pub struct Select<'a> {
    statement: Statement,
    _rows: &'a Rows,
}

impl Rows {
    /// Without any row.
    pub fn new(setting: &Setting) -> Rows {
        let database = Database::open();
        let properties = Table::read(&setting.table).unwrap().properties;
        let columns: Vec<String> = properties
            .iter()
            .map(|p| format!("\"{}\" {}", std::str::from_utf8(&p.name).unwrap(), column_type(p.kind)))
            .collect();
        database.execute(&format!("CREATE TABLE p (n INTEGER PRIMARY KEY, {})", columns.join(", ")));
        let insertion = database.prepare(&format!("INSERT INTO p VALUES (?{})", ", ?".repeat(columns.len())));
        Rows { insertion, database }
    }

    /// A row for each instance, in one transaction.
    pub fn insert(&self, instances: &[&[u8]]) {
        self.database.execute("BEGIN");
        for (n, instance) in instances.iter().enumerate() {
            unsafe { sqlite3_bind_int64(self.insertion.0, 1, n as i64) };
            let (mut rest, mut column) = (*instance, 2);
            while let [a, b, c, d, behind @ ..] = rest {
                let (body, next) = behind.split_at(usize::from(u16::from_le_bytes([*a, *b])));
                self.insertion.bind(column, u16::from_le_bytes([*c, *d]), body);
                (rest, column) = (next, column + 1);
            }
            assert_eq!(unsafe { sqlite3_step(self.insertion.0) }, DONE);
            unsafe { sqlite3_reset(self.insertion.0) };
        }
        self.database.execute("COMMIT");
    }

    pub fn clear(&self) -> u64 {
        self.database.execute("DELETE FROM p");
        0
    }

    pub fn select(&self, condition: &str) -> Option<Select<'_>> {
        let statement = self.database.prepare(&format!("SELECT n FROM p WHERE {condition}"));
        Some(Select { statement, _rows: self })
    }
}

fn column_type(kind: u16) -> &'static str {
    match kind {
        REAL64 => "REAL",
        STRING | DATETIME => "TEXT",
        _ if is_array(kind) => "BLOB",
        _ => "INTEGER",
    }
}

impl Statement {
    /// The record's bytes outlive the statement's step, so that SQLite need not copy them first.
    fn bind(&self, column: c_int, kind: u16, body: &[u8]) {
        let (length, kept) = (body.len() as c_int, null());
        let done = unsafe {
            match kind {
                NULL => sqlite3_bind_null(self.0, column),
                REAL64 => sqlite3_bind_double(self.0, column, f64::from_le_bytes(body.try_into().unwrap())),
                STRING | DATETIME => sqlite3_bind_text(self.0, column, body.as_ptr(), length, kept),
                _ if is_array(kind) => sqlite3_bind_blob(self.0, column, body.as_ptr(), length, kept),
                BOOLEAN => sqlite3_bind_int64(self.0, column, i64::from(body[0])),
                _ => sqlite3_bind_int64(self.0, column, integer::read(kind, body).unwrap() as i64),
            }
        };
        assert_eq!(done, 0);
    }
}

impl Select<'_> {
    /// Marks the rows that the condition holds of, in marks that are 0.
    pub fn mark(&self, marks: &mut [u8]) -> u64 {
        let (statement, mut found) = (self.statement.0, 0);
        while unsafe { sqlite3_step(statement) } == ROW {
            marks[unsafe { sqlite3_column_int64(statement, 0) } as usize] = 1;
            found += 1;
        }
        unsafe { sqlite3_reset(statement) };
        found
    }
}
