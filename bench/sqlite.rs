// SQLite, whose library is on the machine, as bench/tree, bench/load and bench/served ask it: one table of rows without row ids, on a
// file with pages of 4,096 bytes.
#![allow(dead_code)]
use std::ffi::{CString, c_char, c_int, c_void};
use std::ptr::{null, null_mut};

#[link(name = "sqlite3")]
unsafe extern "C" {
    fn sqlite3_open(path: *const c_char, db: *mut *mut c_void) -> c_int;
    fn sqlite3_close(db: *mut c_void) -> c_int;
    fn sqlite3_exec(db: *mut c_void, text: *const c_char, call: *const c_void, arg: *mut c_void, error: *mut *mut c_char) -> c_int;
    fn sqlite3_prepare_v2(db: *mut c_void, text: *const c_char, length: c_int, made: *mut *mut c_void, rest: *mut *const c_char) -> c_int;
    fn sqlite3_bind_blob(made: *mut c_void, k: c_int, bytes: *const u8, length: c_int, keep: *const c_void) -> c_int;
    fn sqlite3_step(made: *mut c_void) -> c_int;
    fn sqlite3_reset(made: *mut c_void) -> c_int;
    fn sqlite3_finalize(made: *mut c_void) -> c_int;
    fn sqlite3_column_blob(made: *mut c_void, k: c_int) -> *const u8;
}

const ROW: c_int = 100;
const DONE: c_int = 101;

pub struct Base(*mut c_void);

impl Base {
    // a new file with the table; its journal is of this mode with full syncs, or as SQLite has it where none is given
    pub fn new(path: &str, mode: Option<&str>) -> Base {
        let place = CString::new(path).unwrap();
        let mut base = Base(null_mut());
        assert_eq!(unsafe { sqlite3_open(place.as_ptr(), &mut base.0) }, 0);
        base.run("PRAGMA page_size = 4096");
        if let Some(mode) = mode {
            base.run(&format!("PRAGMA journal_mode = {mode}; PRAGMA synchronous = FULL"));
        }
        base.run("CREATE TABLE rows (k BLOB PRIMARY KEY, v BLOB) WITHOUT ROWID");
        base
    }

    pub fn run(&self, text: &str) {
        let text = CString::new(text).unwrap();
        assert_eq!(unsafe { sqlite3_exec(self.0, text.as_ptr(), null(), null_mut(), null_mut()) }, 0);
    }

    pub fn statement(&self, text: &str) -> Statement {
        let text = CString::new(text).unwrap();
        let mut made = null_mut();
        assert_eq!(unsafe { sqlite3_prepare_v2(self.0, text.as_ptr(), -1, &mut made, null_mut()) }, 0);
        Statement(made)
    }
}

impl Drop for Base {
    fn drop(&mut self) {
        unsafe { sqlite3_close(self.0) };
    }
}

pub struct Statement(*mut c_void);

impl Statement {
    // the bytes aren't copied: they are there until the step
    pub fn bind(&self, k: c_int, bytes: &[u8]) {
        assert_eq!(unsafe { sqlite3_bind_blob(self.0, k, bytes.as_ptr(), bytes.len() as c_int, null()) }, 0);
    }

    // whether a row has come
    pub fn step(&self) -> bool {
        match unsafe { sqlite3_step(self.0) } {
            ROW => true,
            DONE => false,
            code => panic!("{code}?"),
        }
    }

    pub fn reset(&self) {
        unsafe { sqlite3_reset(self.0) };
    }

    // a byte of a column of the row that has come
    pub fn byte(&self, column: c_int, at: usize) -> u8 {
        unsafe { *sqlite3_column_blob(self.0, column).add(at) }
    }

    pub fn put(&self, key: &[u8], value: &[u8]) {
        self.bind(1, key);
        self.bind(2, value);
        assert!(!self.step());
        self.reset();
    }
}

impl Drop for Statement {
    fn drop(&mut self) {
        unsafe { sqlite3_finalize(self.0) };
    }
}
