//! What this program calls of SQLite 3, as `sqlite3.h` declares it.
#![allow(non_camel_case_types)]

use std::ffi::{c_char, c_int, c_uint, c_void};

pub enum sqlite3 {}

pub enum sqlite3_stmt {}

pub const SQLITE_OK: c_int = 0;
pub const SQLITE_ROW: c_int = 100;
pub const SQLITE_DONE: c_int = 101;

/// That a statement is kept for long.
pub const SQLITE_PREPARE_PERSISTENT: c_uint = 1;

#[link(name = "sqlite3")]
unsafe extern "C" {
    pub fn sqlite3_open(path: *const c_char, db: *mut *mut sqlite3) -> c_int;
    pub fn sqlite3_errmsg(db: *mut sqlite3) -> *const c_char;
    pub fn sqlite3_exec(
        db: *mut sqlite3,
        sql: *const c_char,
        see: *const c_void,
        argument: *mut c_void,
        message: *mut *mut c_char,
    ) -> c_int;
    pub fn sqlite3_prepare_v3(
        db: *mut sqlite3,
        sql: *const c_char,
        length: c_int,
        flags: c_uint,
        statement: *mut *mut sqlite3_stmt,
        tail: *mut *const c_char,
    ) -> c_int;
    pub fn sqlite3_bind_int64(statement: *mut sqlite3_stmt, place: c_int, number: i64) -> c_int;
    pub fn sqlite3_bind_text(
        statement: *mut sqlite3_stmt,
        place: c_int,
        text: *const c_char,
        length: c_int,
        give_back: *const c_void,
    ) -> c_int;
    pub fn sqlite3_step(statement: *mut sqlite3_stmt) -> c_int;
    pub fn sqlite3_column_int64(statement: *mut sqlite3_stmt, column: c_int) -> i64;
    pub fn sqlite3_column_text(statement: *mut sqlite3_stmt, column: c_int) -> *const u8;
    pub fn sqlite3_column_bytes(statement: *mut sqlite3_stmt, column: c_int) -> c_int;
    pub fn sqlite3_reset(statement: *mut sqlite3_stmt) -> c_int;
}
