//! The C library SQLite: one connection, which keeps its statements. A failure ends the program.

use std::collections::HashMap;
use std::ffi::{c_char, c_int, c_void, CStr, CString};
use std::ptr;
use std::slice;

#[repr(C)]
struct Database {
    _opaque: [u8; 0],
}

#[repr(C)]
struct Statement {
    _opaque: [u8; 0],
}

type Free = Option<unsafe extern "C" fn(*mut c_void)>;
type Each = Option<unsafe extern "C" fn(*mut c_void, c_int, *mut *mut c_char, *mut *mut c_char) -> c_int>;

#[link(name = "sqlite3")]
extern "C" {
    fn sqlite3_open_v2(path: *const c_char, db: *mut *mut Database, flags: c_int, vfs: *const c_char) -> c_int;
    fn sqlite3_close(db: *mut Database) -> c_int;
    fn sqlite3_errmsg(db: *mut Database) -> *const c_char;
    fn sqlite3_exec(
        db: *mut Database,
        sql: *const c_char,
        each: Each,
        data: *mut c_void,
        message: *mut *mut c_char,
    ) -> c_int;
    fn sqlite3_prepare_v2(
        db: *mut Database,
        sql: *const c_char,
        length: c_int,
        statement: *mut *mut Statement,
        rest: *mut *const c_char,
    ) -> c_int;
    fn sqlite3_bind_int64(statement: *mut Statement, at: c_int, value: i64) -> c_int;
    fn sqlite3_bind_null(statement: *mut Statement, at: c_int) -> c_int;
    fn sqlite3_bind_blob(statement: *mut Statement, at: c_int, bytes: *const c_void, length: c_int, free: Free) -> c_int;
    fn sqlite3_bind_text(statement: *mut Statement, at: c_int, text: *const c_char, length: c_int, free: Free) -> c_int;
    fn sqlite3_step(statement: *mut Statement) -> c_int;
    fn sqlite3_reset(statement: *mut Statement) -> c_int;
    fn sqlite3_finalize(statement: *mut Statement) -> c_int;
    fn sqlite3_column_int64(statement: *mut Statement, at: c_int) -> i64;
    fn sqlite3_column_blob(statement: *mut Statement, at: c_int) -> *const c_void;
    fn sqlite3_column_bytes(statement: *mut Statement, at: c_int) -> c_int;
    fn sqlite3_column_type(statement: *mut Statement, at: c_int) -> c_int;
}

const OK: c_int = 0;
const ROW: c_int = 100;
const DONE: c_int = 101;
const READ_WRITE: c_int = 2;
const NULL: c_int = 5;

pub enum Value<'a> {
    Null,
    Int(i64),
    Text(&'a str),
    Blob(&'a [u8]),
}

/// A row, as long as its statement is at it.
pub struct Row(*mut Statement);

pub struct Connection {
    db: *mut Database,
    statements: HashMap<&'static str, *mut Statement>,
}

impl Row {
    pub fn int(&self, at: i32) -> i64 {
        unsafe { sqlite3_column_int64(self.0, at) }
    }

    pub fn is_null(&self, at: i32) -> bool {
        unsafe { sqlite3_column_type(self.0, at) == NULL }
    }

    pub fn bytes(&self, at: i32) -> &[u8] {
        unsafe {
            let bytes = sqlite3_column_blob(self.0, at);
            let length = sqlite3_column_bytes(self.0, at) as usize;
            if bytes.is_null() { &[] } else { slice::from_raw_parts(bytes.cast(), length) }
        }
    }

    /// The bytes of a blob of this length.
    pub fn array<const LENGTH: usize>(&self, at: i32) -> [u8; LENGTH] {
        self.bytes(at).try_into().expect("a blob of another length")
    }

    pub fn text(&self, at: i32) -> String {
        String::from_utf8(self.bytes(at).to_vec()).expect("a text that is not UTF-8")
    }
}

impl Connection {
    /// Opens a file that is there, as a program has it that nobody else writes, durable at each commit.
    pub fn open(path: &str) -> Connection {
        let path = CString::new(path).expect("a path with a zero");
        let mut made = Connection { db: ptr::null_mut(), statements: HashMap::new() };
        let code = unsafe { sqlite3_open_v2(path.as_ptr(), &mut made.db, READ_WRITE, ptr::null()) };
        made.expect(code, OK);
        made.batch(c"PRAGMA locking_mode = EXCLUSIVE; PRAGMA journal_mode = WAL; PRAGMA synchronous = EXTRA");
        made
    }

    fn expect(&self, code: c_int, due: c_int) {
        if code != due {
            let message = unsafe { CStr::from_ptr(sqlite3_errmsg(self.db)) };
            panic!("SQLite: {}", message.to_string_lossy());
        }
    }

    /// Runs statements that have no values.
    fn batch(&self, sql: &CStr) {
        let none = ptr::null_mut();
        let code = unsafe { sqlite3_exec(self.db, sql.as_ptr(), None, none, ptr::null_mut()) };
        self.expect(code, OK);
    }

    /// The statement of this text, which is prepared once.
    fn statement(&mut self, sql: &'static str) -> *mut Statement {
        if let Some(statement) = self.statements.get(sql) {
            return *statement;
        }
        let mut statement = ptr::null_mut();
        let (text, length) = (sql.as_ptr().cast(), sql.len() as c_int);
        let code = unsafe { sqlite3_prepare_v2(self.db, text, length, &mut statement, ptr::null_mut()) };
        self.expect(code, OK);
        self.statements.insert(sql, statement);
        statement
    }

    fn bind(&self, statement: *mut Statement, at: c_int, value: &Value<'_>) {
        // The values outlive the statement's run, so SQLite needs no copies of theirs.
        let code = unsafe {
            match value {
                Value::Null => sqlite3_bind_null(statement, at),
                Value::Int(number) => sqlite3_bind_int64(statement, at, *number),
                Value::Text(text) => {
                    sqlite3_bind_text(statement, at, text.as_ptr().cast(), text.len() as c_int, None)
                }
                Value::Blob(bytes) => {
                    sqlite3_bind_blob(statement, at, bytes.as_ptr().cast(), bytes.len() as c_int, None)
                }
            }
        };
        self.expect(code, OK);
    }

    /// Runs a statement with these values, and shows each row until one is the last that is wanted.
    pub fn walk(&mut self, sql: &'static str, values: &[Value<'_>], mut goes_on: impl FnMut(&Row) -> bool) {
        let statement = self.statement(sql);
        for (at, value) in (1..).zip(values) {
            self.bind(statement, at, value);
        }
        let mut code = unsafe { sqlite3_step(statement) };
        while code == ROW && goes_on(&Row(statement)) {
            code = unsafe { sqlite3_step(statement) };
        }
        if code != ROW {
            self.expect(code, DONE);
        }
        self.expect(unsafe { sqlite3_reset(statement) }, OK);
    }

    /// Runs a statement with these values, and makes something of each row.
    pub fn rows<T>(&mut self, sql: &'static str, values: &[Value<'_>], of: impl Fn(&Row) -> T) -> Vec<T> {
        let mut made = Vec::new();
        self.walk(sql, values, |row| {
            made.push(of(row));
            true
        });
        made
    }

    /// Runs a statement that has no rows.
    pub fn run(&mut self, sql: &'static str, values: &[Value<'_>]) {
        self.rows(sql, values, |_| ());
    }

    /// Writes all of it in one commit.
    pub fn commit(&mut self, write: impl FnOnce(&mut Connection)) {
        self.run("BEGIN", &[]);
        write(self);
        self.run("COMMIT", &[]);
    }
}

impl Drop for Connection {
    fn drop(&mut self) {
        for statement in self.statements.values() {
            unsafe { sqlite3_finalize(*statement) };
        }
        unsafe { sqlite3_close(self.db) };
    }
}
