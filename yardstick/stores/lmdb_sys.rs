//! What this program calls of LMDB 0.9, as `lmdb.h` declares it.
#![allow(non_camel_case_types)]

use std::ffi::{c_char, c_int, c_uint, c_void};

pub enum MDB_env {}

pub enum MDB_txn {}

pub enum MDB_cursor {}

pub type MDB_dbi = c_uint;

#[repr(C)]
pub struct MDB_val {
    pub mv_size: usize,
    pub mv_data: *mut c_void,
}

pub const MDB_NOTFOUND: c_int = -30798;

/// Flags of an environment, and of a transaction.
pub const MDB_NOSYNC: c_uint = 0x10000;
pub const MDB_RDONLY: c_uint = 0x20000;
pub const MDB_WRITEMAP: c_uint = 0x80000;

/// Flags of a table.
pub const MDB_INTEGERKEY: c_uint = 0x08;
pub const MDB_CREATE: c_uint = 0x40000;

/// Flags of a put.
pub const MDB_CURRENT: c_uint = 0x40;
pub const MDB_APPEND: c_uint = 0x20000;

/// Where a cursor goes.
pub const MDB_NEXT: c_uint = 8;
pub const MDB_SET: c_uint = 15;
pub const MDB_SET_RANGE: c_uint = 17;

#[link(name = "lmdb")]
unsafe extern "C" {
    pub fn mdb_strerror(code: c_int) -> *const c_char;
    pub fn mdb_env_create(env: *mut *mut MDB_env) -> c_int;
    pub fn mdb_env_set_mapsize(env: *mut MDB_env, size: usize) -> c_int;
    pub fn mdb_env_set_maxdbs(env: *mut MDB_env, dbs: MDB_dbi) -> c_int;
    pub fn mdb_env_open(env: *mut MDB_env, path: *const c_char, flags: c_uint, mode: c_uint) -> c_int;
    pub fn mdb_txn_begin(env: *mut MDB_env, parent: *mut MDB_txn, flags: c_uint, txn: *mut *mut MDB_txn) -> c_int;
    pub fn mdb_txn_commit(txn: *mut MDB_txn) -> c_int;
    pub fn mdb_txn_abort(txn: *mut MDB_txn);
    pub fn mdb_txn_reset(txn: *mut MDB_txn);
    pub fn mdb_txn_renew(txn: *mut MDB_txn) -> c_int;
    pub fn mdb_dbi_open(txn: *mut MDB_txn, name: *const c_char, flags: c_uint, dbi: *mut MDB_dbi) -> c_int;
    pub fn mdb_get(txn: *mut MDB_txn, dbi: MDB_dbi, key: *mut MDB_val, data: *mut MDB_val) -> c_int;
    pub fn mdb_put(txn: *mut MDB_txn, dbi: MDB_dbi, key: *mut MDB_val, data: *mut MDB_val, flags: c_uint) -> c_int;
    pub fn mdb_del(txn: *mut MDB_txn, dbi: MDB_dbi, key: *mut MDB_val, data: *mut MDB_val) -> c_int;
    pub fn mdb_cursor_open(txn: *mut MDB_txn, dbi: MDB_dbi, cursor: *mut *mut MDB_cursor) -> c_int;
    pub fn mdb_cursor_close(cursor: *mut MDB_cursor);
    pub fn mdb_cursor_get(cursor: *mut MDB_cursor, key: *mut MDB_val, data: *mut MDB_val, op: c_uint) -> c_int;
    pub fn mdb_cursor_put(cursor: *mut MDB_cursor, key: *mut MDB_val, data: *mut MDB_val, flags: c_uint) -> c_int;
}
