//! LMDB: a table is a B-tree of its own, from numbers that hold a row's key to the row's bytes.

use crate::lmdb_sys::*;
use crate::store::{DistrictRow, Place, Store, WarehouseRow};
use crate::tables::{Cents, Customer, Data, History, Item, Order, OrderLine, Stock};
use std::ffi::{CStr, CString, c_int, c_uint, c_void};
use std::ptr::null_mut;

/// The most bytes of the file, which takes up only what is written.
const MAP_SIZE: usize = 16 << 30;

#[derive(Clone, Copy)]
enum Table {
    Item,
    Warehouse,
    Stock,
    District,
    Customer,
    Data,
    Order,
    Waiting,
    Line,
    History,
    /// The customers by last name and first name: all is in the key.
    Named,
}

const TABLES: [&CStr; 11] = [
    c"item",
    c"warehouse",
    c"stock",
    c"district",
    c"customer",
    c"customer_data",
    c"orders",
    c"new_order",
    c"order_line",
    c"history",
    c"customer_name",
];

pub struct Lmdb {
    environment: *mut MDB_env,
    transaction: *mut MDB_txn,
    /// A transaction that only reads, kept to be renewed.
    reader: *mut MDB_txn,
    is_writing: bool,
    tables: [MDB_dbi; TABLES.len()],
    /// The cursors that the transaction has opened, one a table.
    cursors: [*mut MDB_cursor; TABLES.len()],
    /// The rows of HISTORY.
    history: u64,
}

/// Ends the program where a call has failed.
fn must(code: c_int) {
    if code != 0 {
        let reason = unsafe { CStr::from_ptr(mdb_strerror(code)) };
        panic!("lmdb: {}", reason.to_string_lossy());
    }
}

/// A key or a row as the bytes that it is in memory: this program alone reads them.
fn bytes_of<T: Copy>(row: &T) -> MDB_val {
    MDB_val { mv_size: size_of::<T>(), mv_data: std::ptr::from_ref(row).cast_mut().cast::<c_void>() }
}

impl MDB_val {
    const EMPTY: MDB_val = MDB_val { mv_size: 0, mv_data: null_mut() };

    fn read<T: Copy>(&self) -> T {
        assert_eq!(self.mv_size, size_of::<T>());
        unsafe { self.mv_data.cast::<T>().read_unaligned() }
    }
}

fn place_key(at: Place, number: u32) -> u64 {
    u64::from(at.warehouse) << 56 | u64::from(at.district) << 48 | u64::from(number)
}

fn stock_key(warehouse: u32, item: u32) -> u64 {
    u64::from(warehouse) << 56 | u64::from(item)
}

fn line_key(at: Place, order: u32, number: u32) -> u64 {
    place_key(at, 0) | u64::from(order) << 8 | u64::from(number)
}

fn name_key(at: Place, last_name: u32, first_name: u32, customer: u32) -> u64 {
    place_key(at, customer) | u64::from(last_name) << 32 | u64::from(first_name) << 16
}

impl Lmdb {
    /// An empty store in this folder. With sync each commit is on the disk before it ends; without, the file is written
    /// as memory, and the system writes it out when it likes.
    pub fn create(folder: &str, is_synced: bool) -> Lmdb {
        let path = CString::new(folder).expect("a path");
        let flags = if is_synced { 0 } else { MDB_NOSYNC | MDB_WRITEMAP };
        let (mut environment, mut transaction) = (null_mut(), null_mut());
        let mut tables = [0; TABLES.len()];
        unsafe {
            must(mdb_env_create(&mut environment));
            must(mdb_env_set_mapsize(environment, MAP_SIZE));
            must(mdb_env_set_maxdbs(environment, TABLES.len() as c_uint));
            must(mdb_env_open(environment, path.as_ptr(), flags, 0o600));
            must(mdb_txn_begin(environment, null_mut(), 0, &mut transaction));
            for (table, name) in tables.iter_mut().zip(TABLES) {
                must(mdb_dbi_open(transaction, name.as_ptr(), MDB_CREATE | MDB_INTEGERKEY, table));
            }
            must(mdb_txn_commit(transaction));
        }
        Lmdb {
            environment,
            transaction: null_mut(),
            reader: null_mut(),
            is_writing: false,
            tables,
            cursors: [null_mut(); TABLES.len()],
            history: 0,
        }
    }

    fn cursor(&mut self, table: Table) -> *mut MDB_cursor {
        let cursor = &mut self.cursors[table as usize];
        if cursor.is_null() {
            must(unsafe { mdb_cursor_open(self.transaction, self.tables[table as usize], cursor) });
        }
        *cursor
    }

    fn find<T: Copy>(&self, table: Table, key: u64) -> Option<T> {
        let (mut key, mut row) = (bytes_of(&key), MDB_val::EMPTY);
        match unsafe { mdb_get(self.transaction, self.tables[table as usize], &mut key, &mut row) } {
            MDB_NOTFOUND => None,
            code => {
                must(code);
                Some(row.read())
            }
        }
    }

    fn get<T: Copy>(&self, table: Table, key: u64) -> T {
        self.find(table, key).expect("a row that is there")
    }

    fn put<T: Copy>(&mut self, table: Table, key: u64, row: &T) {
        self.put_by(table, key, row, 0);
    }

    fn put_by<T: Copy>(&mut self, table: Table, key: u64, row: &T, flags: c_uint) {
        let (mut key, mut row) = (bytes_of(&key), bytes_of(row));
        must(unsafe { mdb_put(self.transaction, self.tables[table as usize], &mut key, &mut row, flags) });
    }

    /// Changes a row where its cursor has found it, and gives what the change gives.
    fn change<T: Copy, R>(&mut self, table: Table, key: u64, change: impl FnOnce(&mut T) -> R) -> R {
        let cursor = self.cursor(table);
        let (mut key, mut row) = (bytes_of(&key), MDB_val::EMPTY);
        must(unsafe { mdb_cursor_get(cursor, &mut key, &mut row, MDB_SET) });
        let mut changed = row.read();
        let given = change(&mut changed);
        must(unsafe { mdb_cursor_put(cursor, &mut key, &mut bytes_of(&changed), MDB_CURRENT) });
        given
    }

    /// Shows the rows from one key up to another, with their keys, as long as `see` says so. A row that it changes is
    /// put where it gives it back.
    fn walk<T: Copy>(&mut self, table: Table, first: u64, last: u64, mut see: impl FnMut(u64, T) -> Seen<T>) {
        let cursor = self.cursor(table);
        let (mut key, mut row) = (bytes_of(&first), MDB_val::EMPTY);
        let mut code = unsafe { mdb_cursor_get(cursor, &mut key, &mut row, MDB_SET_RANGE) };
        while code == 0 && key.read::<u64>() <= last {
            match see(key.read(), row.read()) {
                Seen::Last => return,
                Seen::Same => {}
                Seen::Changed(changed) => {
                    must(unsafe { mdb_cursor_put(cursor, &mut key, &mut bytes_of(&changed), MDB_CURRENT) });
                }
            }
            code = unsafe { mdb_cursor_get(cursor, &mut key, &mut row, MDB_NEXT) };
        }
        if code != MDB_NOTFOUND {
            must(code);
        }
    }

    fn each<T: Copy>(&mut self, table: Table, first: u64, last: u64, mut see: impl FnMut(u64, T)) {
        self.walk(table, first, last, |key, row| {
            see(key, row);
            Seen::Same
        });
    }
}

/// What is to be done with a row that was shown.
enum Seen<T> {
    Same,
    Changed(T),
    Last,
}

impl Store for Lmdb {
    fn begin(&mut self, is_writing: bool) {
        self.is_writing = is_writing;
        if is_writing {
            must(unsafe { mdb_txn_begin(self.environment, null_mut(), 0, &mut self.transaction) });
            return;
        }
        if self.reader.is_null() {
            must(unsafe { mdb_txn_begin(self.environment, null_mut(), MDB_RDONLY, &mut self.reader) });
        } else {
            must(unsafe { mdb_txn_renew(self.reader) });
        }
        self.transaction = self.reader;
    }

    fn commit(&mut self) {
        if self.is_writing {
            must(unsafe { mdb_txn_commit(self.transaction) });
        } else {
            self.cursors.iter().for_each(|&cursor| unsafe { mdb_cursor_close(cursor) });
            unsafe { mdb_txn_reset(self.reader) };
        }
        self.cursors = [null_mut(); TABLES.len()];
    }

    fn abandon(&mut self) {
        unsafe { mdb_txn_abort(self.transaction) };
        self.cursors = [null_mut(); TABLES.len()];
    }

    fn add_item(&mut self, item: u32, row: &Item) {
        self.put(Table::Item, item.into(), row);
    }

    fn add_warehouse(&mut self, warehouse: u32, row: &WarehouseRow) {
        self.put(Table::Warehouse, warehouse.into(), row);
    }

    fn add_stock(&mut self, warehouse: u32, item: u32, row: &Stock) {
        self.put(Table::Stock, stock_key(warehouse, item), row);
    }

    fn add_district(&mut self, at: Place, row: &DistrictRow) {
        self.put(Table::District, place_key(at, 0), row);
    }

    fn add_customer(&mut self, at: Place, customer: u32, row: &Customer) {
        self.put(Table::Customer, place_key(at, customer), row);
        self.put(Table::Named, name_key(at, row.last_name, row.first_name, customer), &());
    }

    fn add_data(&mut self, at: Place, customer: u32, data: &Data) {
        self.put(Table::Data, place_key(at, customer), data);
    }

    fn add_order(&mut self, at: Place, order: u32, row: &Order) {
        self.put(Table::Order, place_key(at, order), row);
    }

    fn add_waiting(&mut self, at: Place, order: u32) {
        self.put(Table::Waiting, place_key(at, order), &());
    }

    fn add_line(&mut self, at: Place, order: u32, number: u32, row: &OrderLine) {
        self.put(Table::Line, line_key(at, order, number), row);
    }

    fn add_history(&mut self, row: &History) {
        self.history += 1;
        self.put_by(Table::History, self.history, row, MDB_APPEND);
    }

    fn price(&mut self, item: u32) -> Cents {
        self.get::<Item>(Table::Item, item.into()).price
    }

    fn warehouse(&mut self, warehouse: u32) -> WarehouseRow {
        self.get(Table::Warehouse, warehouse.into())
    }

    fn district(&mut self, at: Place) -> DistrictRow {
        self.get(Table::District, place_key(at, 0))
    }

    fn stock(&mut self, warehouse: u32, item: u32) -> Stock {
        self.get(Table::Stock, stock_key(warehouse, item))
    }

    fn customer(&mut self, at: Place, customer: u32) -> Customer {
        self.get(Table::Customer, place_key(at, customer))
    }

    fn data(&mut self, at: Place, customer: u32) -> Data {
        self.get(Table::Data, place_key(at, customer))
    }

    fn customer_named(&mut self, at: Place, last_name: u32) -> u32 {
        let mut named = Vec::new();
        let (first, last) = (name_key(at, last_name, 0, 0), name_key(at, last_name, 0xffff, 0xffff));
        self.each(Table::Named, first, last, |key, ()| named.push(key as u32 & 0xffff));
        named[named.len().div_ceil(2) - 1]
    }

    fn order(&mut self, at: Place, order: u32) -> Option<Order> {
        self.find(Table::Order, place_key(at, order))
    }

    fn lines(&mut self, at: Place, order: u32, into: &mut Vec<OrderLine>) {
        into.clear();
        self.each(Table::Line, line_key(at, order, 0), line_key(at, order, 255), |_, row| into.push(row));
    }

    fn waiting(&mut self, at: Place) -> Vec<u32> {
        let mut orders = Vec::new();
        self.each(Table::Waiting, place_key(at, 0), place_key(at, u32::MAX), |key, ()| orders.push(key as u32));
        orders
    }

    fn history(&mut self) -> Vec<History> {
        let mut rows = Vec::new();
        self.each(Table::History, 0, u64::MAX, |_, row| rows.push(row));
        rows
    }

    fn pay_warehouse(&mut self, warehouse: u32, amount: Cents) {
        self.change(Table::Warehouse, warehouse.into(), |row: &mut WarehouseRow| row.year_to_date += amount);
    }

    fn pay_district(&mut self, at: Place, amount: Cents) {
        self.change(Table::District, place_key(at, 0), |row: &mut DistrictRow| row.year_to_date += amount);
    }

    fn pay_customer(&mut self, at: Place, customer: u32, amount: Cents) -> (Cents, bool) {
        self.change(Table::Customer, place_key(at, customer), |row: &mut Customer| {
            row.balance -= amount;
            row.paid += amount;
            row.payments += 1;
            (row.balance, row.has_bad_credit)
        })
    }

    fn put_data_left(&mut self, at: Place, customer: u32, front: &[u8]) {
        self.change(Table::Data, place_key(at, customer), |data: &mut Data| data.put_left(front));
    }

    fn take_number(&mut self, at: Place) -> DistrictRow {
        self.change(Table::District, place_key(at, 0), |row: &mut DistrictRow| {
            let before = *row;
            row.next_order += 1;
            before
        })
    }

    fn set_last_order(&mut self, at: Place, customer: u32, order: u32) -> i64 {
        self.change(Table::Customer, place_key(at, customer), |row: &mut Customer| {
            row.last_order = Some(order);
            row.discount
        })
    }

    fn draw(&mut self, warehouse: u32, item: u32, quantity: u32, is_remote: bool) -> u32 {
        self.change(Table::Stock, stock_key(warehouse, item), |row: &mut Stock| {
            row.draw(quantity, is_remote);
            row.quantity
        })
    }

    fn take_waiting(&mut self, at: Place) -> Option<u32> {
        let mut least = None;
        self.walk(Table::Waiting, place_key(at, 0), place_key(at, u32::MAX), |key, ()| {
            least = Some(key);
            Seen::Last
        });
        let mut key = bytes_of(least.as_ref()?);
        must(unsafe { mdb_del(self.transaction, self.tables[Table::Waiting as usize], &mut key, null_mut()) });
        least.map(|key| key as u32)
    }

    fn set_carrier(&mut self, at: Place, order: u32, carrier: u32) -> u32 {
        self.change(Table::Order, place_key(at, order), |row: &mut Order| {
            row.carrier = Some(carrier);
            row.customer
        })
    }

    fn deliver_lines(&mut self, at: Place, order: u32, date: u32) -> Cents {
        let mut amount = Cents(0);
        self.walk(Table::Line, line_key(at, order, 0), line_key(at, order, 255), |_, row: OrderLine| {
            amount += row.amount;
            Seen::Changed(OrderLine { delivery_date: Some(date), ..row })
        });
        amount
    }

    fn credit(&mut self, at: Place, customer: u32, amount: Cents) {
        self.change(Table::Customer, place_key(at, customer), |row: &mut Customer| {
            row.balance += amount;
            row.deliveries += 1;
        });
    }

    fn low_stock(&mut self, at: Place, first: u32, last: u32, threshold: u32) -> u32 {
        let mut items = Vec::new();
        let (first, last) = (line_key(at, first, 0), line_key(at, last, 255));
        self.each(Table::Line, first, last, |_, row: OrderLine| items.push(row.item));
        items.sort_unstable();
        items.dedup();
        items.iter().filter(|&&item| self.stock(at.warehouse, item).quantity < threshold).count() as u32
    }
}
