//! SQLite: tables of whole numbers, and one of texts, each step one prepared statement. 0 stands for null: no column but
//! the taxes, counts, amounts and what is true or false, which are never null, is 0 otherwise.

use crate::sqlite_sys::*;
use crate::store::{DistrictRow, Place, Store, WarehouseRow};
use crate::tables::{Cents, Customer, Data, History, Item, LEAST_STOCK, MAX_DATA, Order, OrderLine, RESTOCK, Stock};
use std::ffi::{CStr, CString, c_int};
use std::ptr::{null, null_mut};

/// The tables, each in the order of its key.
const SCHEMA: &CStr = c"
CREATE TABLE item (i INTEGER PRIMARY KEY, price);
CREATE TABLE warehouse (w INTEGER PRIMARY KEY, tax, ytd);
CREATE TABLE stock (w, i, quantity, ytd, orders, remote, PRIMARY KEY (w, i)) WITHOUT ROWID;
CREATE TABLE district (w, d, tax, ytd, next, PRIMARY KEY (w, d)) WITHOUT ROWID;
CREATE TABLE customer (w, d, c, first, last, discount, is_bad, balance, paid, payments, deliveries, last_order,
    PRIMARY KEY (w, d, c)) WITHOUT ROWID;
CREATE TABLE customer_data (w, d, c, data, PRIMARY KEY (w, d, c)) WITHOUT ROWID;
CREATE INDEX customer_name ON customer (w, d, last, first, c);
CREATE TABLE orders (w, d, o, c, entry, carrier, line_count, is_local, PRIMARY KEY (w, d, o)) WITHOUT ROWID;
CREATE TABLE new_order (w, d, o, PRIMARY KEY (w, d, o)) WITHOUT ROWID;
CREATE TABLE order_line (w, d, o, n, item, supply, delivery, quantity, amount,
    PRIMARY KEY (w, d, o, n)) WITHOUT ROWID;
CREATE TABLE history (w, d, cw, cd, c, date, amount);
";

/// The statements that are prepared, each beside its text in `TEXTS`.
#[derive(Clone, Copy)]
enum Step {
    BeginWriting,
    BeginReading,
    Commit,
    Abandon,
    AddItem,
    AddWarehouse,
    AddStock,
    AddDistrict,
    AddCustomer,
    AddData,
    AddOrder,
    AddWaiting,
    AddLine,
    AddHistory,
    Price,
    Warehouse,
    District,
    Stock,
    Customer,
    Data,
    CustomersNamed,
    Order,
    Lines,
    Waiting,
    History,
    PayWarehouse,
    PayDistrict,
    PayCustomer,
    PutDataLeft,
    TakeNumber,
    SetLastOrder,
    Draw,
    TakeWaiting,
    SetCarrier,
    DeliverLines,
    Credit,
    LowStock,
}

const TEXTS: [&CStr; 37] = [
    c"BEGIN IMMEDIATE",
    c"BEGIN",
    c"COMMIT",
    c"ROLLBACK",
    c"INSERT INTO item VALUES (?, ?)",
    c"INSERT INTO warehouse VALUES (?, ?, ?)",
    c"INSERT INTO stock VALUES (?, ?, ?, ?, ?, ?)",
    c"INSERT INTO district VALUES (?, ?, ?, ?, ?)",
    c"INSERT INTO customer VALUES (?, ?, ?, ?, ?, ?, ?, ?, ?, ?, ?, ?)",
    c"INSERT INTO customer_data VALUES (?, ?, ?, ?)",
    c"INSERT INTO orders VALUES (?, ?, ?, ?, ?, ?, ?, ?)",
    c"INSERT INTO new_order VALUES (?, ?, ?)",
    c"INSERT INTO order_line VALUES (?, ?, ?, ?, ?, ?, ?, ?, ?)",
    c"INSERT INTO history VALUES (?, ?, ?, ?, ?, ?, ?)",
    c"SELECT price FROM item WHERE i = ?",
    c"SELECT tax, ytd FROM warehouse WHERE w = ?",
    c"SELECT tax, ytd, next FROM district WHERE w = ? AND d = ?",
    c"SELECT quantity, ytd, orders, remote FROM stock WHERE w = ? AND i = ?",
    c"SELECT first, last, discount, is_bad, balance, paid, payments, deliveries, last_order FROM customer
        WHERE w = ? AND d = ? AND c = ?",
    c"SELECT data FROM customer_data WHERE w = ? AND d = ? AND c = ?",
    c"SELECT c FROM customer WHERE w = ? AND d = ? AND last = ? ORDER BY first, c",
    c"SELECT c, entry, carrier, line_count, is_local FROM orders WHERE w = ? AND d = ? AND o = ?",
    c"SELECT item, supply, delivery, quantity, amount FROM order_line WHERE w = ? AND d = ? AND o = ? ORDER BY n",
    c"SELECT o FROM new_order WHERE w = ? AND d = ? ORDER BY o",
    c"SELECT w, d, cw, cd, c, date, amount FROM history ORDER BY rowid",
    c"UPDATE warehouse SET ytd = ytd + ?2 WHERE w = ?1",
    c"UPDATE district SET ytd = ytd + ?3 WHERE w = ?1 AND d = ?2",
    c"UPDATE customer SET balance = balance - ?4, paid = paid + ?4, payments = payments + 1
        WHERE w = ?1 AND d = ?2 AND c = ?3 RETURNING balance, is_bad",
    c"UPDATE customer_data SET data = substr(?5 || data, 1, ?4) WHERE w = ?1 AND d = ?2 AND c = ?3",
    c"UPDATE district SET next = next + 1 WHERE w = ? AND d = ? RETURNING tax, ytd, next - 1",
    c"UPDATE customer SET last_order = ?4 WHERE w = ?1 AND d = ?2 AND c = ?3 RETURNING discount",
    c"UPDATE stock SET quantity = quantity - ?3 + iif(quantity < ?3 + ?5, ?6, 0), ytd = ytd + ?3, orders = orders + 1,
        remote = remote + ?4 WHERE w = ?1 AND i = ?2 RETURNING quantity",
    c"DELETE FROM new_order WHERE w = ?1 AND d = ?2 AND o = (SELECT min(o) FROM new_order WHERE w = ?1 AND d = ?2)
        RETURNING o",
    c"UPDATE orders SET carrier = ?4 WHERE w = ?1 AND d = ?2 AND o = ?3 RETURNING c",
    c"UPDATE order_line SET delivery = ?4 WHERE w = ?1 AND d = ?2 AND o = ?3 RETURNING amount",
    c"UPDATE customer SET balance = balance + ?4, deliveries = deliveries + 1 WHERE w = ?1 AND d = ?2 AND c = ?3",
    c"SELECT count(DISTINCT item) FROM order_line CROSS JOIN stock ON stock.w = ?1 AND stock.i = item
        WHERE order_line.w = ?1 AND d = ?2 AND o BETWEEN ?3 AND ?4 AND stock.quantity < ?5",
];

pub struct Sqlite {
    database: *mut sqlite3,
    statements: [*mut sqlite3_stmt; TEXTS.len()],
}

impl Sqlite {
    /// An empty store in this folder. It has a write-ahead log; with sync that is on the disk before a commit ends,
    /// without the system writes it out when it likes.
    pub fn create(folder: &str, is_synced: bool) -> Sqlite {
        let path = CString::new(format!("{folder}/tpcc.sqlite")).expect("a path");
        let mut sqlite = Sqlite { database: null_mut(), statements: [null_mut(); TEXTS.len()] };
        let code = unsafe { sqlite3_open(path.as_ptr(), &mut sqlite.database) };
        sqlite.must(code);
        sqlite.run(c"PRAGMA locking_mode = EXCLUSIVE; PRAGMA journal_mode = WAL; PRAGMA cache_size = -1000000");
        sqlite.run(if is_synced { c"PRAGMA synchronous = FULL" } else { c"PRAGMA synchronous = OFF" });
        sqlite.run(SCHEMA);
        for (place, text) in TEXTS.iter().enumerate() {
            let statement = &mut sqlite.statements[place];
            let (all, keep) = (-1, SQLITE_PREPARE_PERSISTENT);
            let code = unsafe { sqlite3_prepare_v3(sqlite.database, text.as_ptr(), all, keep, statement, null_mut()) };
            sqlite.must(code);
        }
        sqlite
    }

    /// Ends the program where a call has failed.
    fn must(&self, code: c_int) {
        if code != SQLITE_OK {
            let reason = unsafe { CStr::from_ptr(sqlite3_errmsg(self.database)) };
            panic!("sqlite: {code}: {}", reason.to_string_lossy());
        }
    }

    fn run(&self, text: &CStr) {
        self.must(unsafe { sqlite3_exec(self.database, text.as_ptr(), null(), null_mut(), null_mut()) });
    }

    /// Runs a statement with these numbers, and shows it at each row that it gives.
    fn run_with(&self, step: Step, numbers: &[i64], mut see: impl FnMut(*mut sqlite3_stmt)) {
        let statement = self.statements[step as usize];
        for (place, &number) in (1..).zip(numbers) {
            self.must(unsafe { sqlite3_bind_int64(statement, place, number) });
        }
        loop {
            match unsafe { sqlite3_step(statement) } {
                SQLITE_ROW => see(statement),
                SQLITE_DONE => break,
                code => self.must(code),
            }
        }
        self.must(unsafe { sqlite3_reset(statement) });
    }

    /// Runs a statement with these numbers, and shows each row of numbers that it gives.
    fn each<const N: usize>(&self, step: Step, numbers: &[i64], mut see: impl FnMut([i64; N])) {
        self.run_with(step, numbers, |statement| {
            see(std::array::from_fn(|column| unsafe { sqlite3_column_int64(statement, column as c_int) }));
        });
    }

    fn find<const N: usize>(&self, step: Step, numbers: &[i64]) -> Option<[i64; N]> {
        let mut found = None;
        self.each(step, numbers, |row| found = Some(row));
        found
    }

    fn get<const N: usize>(&self, step: Step, numbers: &[i64]) -> [i64; N] {
        self.find(step, numbers).expect("a row that is there")
    }

    fn act(&self, step: Step, numbers: &[i64]) {
        self.each(step, numbers, |_: [i64; 0]| {});
    }

    /// Runs a statement with these numbers, and a text behind them.
    fn act_with_text(&self, step: Step, numbers: &[i64], text: &[u8]) {
        let (statement, place) = (self.statements[step as usize], numbers.len() as c_int + 1);
        let (first, length) = (text.as_ptr().cast(), text.len() as c_int);
        // It isn't copied: it lives until the statement has run, which binds another one before it runs again.
        self.must(unsafe { sqlite3_bind_text(statement, place, first, length, null()) });
        self.act(step, numbers);
    }
}

fn nullable(number: i64) -> Option<u32> {
    (number != 0).then_some(number as u32)
}

fn column(number: Option<u32>) -> i64 {
    number.unwrap_or(0).into()
}

/// The key of a row in a district.
fn key(at: Place, number: u32) -> [i64; 3] {
    [at.warehouse.into(), at.district.into(), number.into()]
}

fn line_of([item, supply, delivery, quantity, amount]: [i64; 5]) -> OrderLine {
    OrderLine {
        item: item as u32,
        supply_warehouse: supply as u32,
        delivery_date: nullable(delivery),
        quantity: quantity as u32,
        amount: Cents(amount),
    }
}

fn history_of([w, d, cw, cd, c, date, amount]: [i64; 7]) -> History {
    History {
        warehouse: w as u32,
        district: d as u32,
        customer_warehouse: cw as u32,
        customer_district: cd as u32,
        customer: c as u32,
        date: date as u32,
        amount: Cents(amount),
    }
}

fn district_of([tax, ytd, next]: [i64; 3]) -> DistrictRow {
    DistrictRow { tax, year_to_date: Cents(ytd), next_order: next as u32 }
}

impl Store for Sqlite {
    fn begin(&mut self, is_writing: bool) {
        self.act(if is_writing { Step::BeginWriting } else { Step::BeginReading }, &[]);
    }

    fn commit(&mut self) {
        self.act(Step::Commit, &[]);
    }

    fn abandon(&mut self) {
        self.act(Step::Abandon, &[]);
    }

    fn add_item(&mut self, item: u32, row: &Item) {
        self.act(Step::AddItem, &[item.into(), row.price.0]);
    }

    fn add_warehouse(&mut self, warehouse: u32, row: &WarehouseRow) {
        self.act(Step::AddWarehouse, &[warehouse.into(), row.tax, row.year_to_date.0]);
    }

    fn add_stock(&mut self, warehouse: u32, item: u32, row: &Stock) {
        let &Stock { quantity, year_to_date, orders, remote_orders } = row;
        self.act(Step::AddStock, &[warehouse, item, quantity, year_to_date, orders, remote_orders].map(i64::from));
    }

    fn add_district(&mut self, at: Place, row: &DistrictRow) {
        let [w, d, next] = key(at, row.next_order);
        self.act(Step::AddDistrict, &[w, d, row.tax, row.year_to_date.0, next]);
    }

    fn add_customer(&mut self, at: Place, customer: u32, row: &Customer) {
        let [w, d, c] = key(at, customer);
        let (first, last, is_bad) = (row.first_name.into(), row.last_name.into(), row.has_bad_credit.into());
        let counts = [row.payments.into(), row.deliveries.into(), column(row.last_order)];
        let [payments, deliveries, last_order] = counts;
        let &Customer { discount, balance, paid, .. } = row;
        let numbers = [w, d, c, first, last, discount, is_bad, balance.0, paid.0, payments, deliveries, last_order];
        self.act(Step::AddCustomer, &numbers);
    }

    fn add_data(&mut self, at: Place, customer: u32, data: &Data) {
        self.act_with_text(Step::AddData, &key(at, customer), data.as_bytes());
    }

    fn add_order(&mut self, at: Place, order: u32, row: &Order) {
        let [w, d, o] = key(at, order);
        let numbers = [row.customer.into(), row.entry_date.into(), column(row.carrier), row.line_count.into()];
        let [c, entry, carrier, line_count] = numbers;
        self.act(Step::AddOrder, &[w, d, o, c, entry, carrier, line_count, row.is_all_local.into()]);
    }

    fn add_waiting(&mut self, at: Place, order: u32) {
        self.act(Step::AddWaiting, &key(at, order));
    }

    fn add_line(&mut self, at: Place, order: u32, number: u32, row: &OrderLine) {
        let [w, d, o] = key(at, order);
        let &OrderLine { item, supply_warehouse, delivery_date, quantity, amount } = row;
        let [n, item, supply, quantity] = [number, item, supply_warehouse, quantity].map(i64::from);
        self.act(Step::AddLine, &[w, d, o, n, item, supply, column(delivery_date), quantity, amount.0]);
    }

    fn add_history(&mut self, row: &History) {
        let &History { warehouse, district, customer_warehouse, customer_district, customer, date, amount } = row;
        let numbers = [warehouse, district, customer_warehouse, customer_district, customer, date].map(i64::from);
        let [w, d, cw, cd, c, date] = numbers;
        self.act(Step::AddHistory, &[w, d, cw, cd, c, date, amount.0]);
    }

    fn price(&mut self, item: u32) -> Cents {
        let [price] = self.get(Step::Price, &[item.into()]);
        Cents(price)
    }

    fn warehouse(&mut self, warehouse: u32) -> WarehouseRow {
        let [tax, ytd] = self.get(Step::Warehouse, &[warehouse.into()]);
        WarehouseRow { tax, year_to_date: Cents(ytd) }
    }

    fn district(&mut self, at: Place) -> DistrictRow {
        let [w, d, _] = key(at, 0);
        district_of(self.get(Step::District, &[w, d]))
    }

    fn stock(&mut self, warehouse: u32, item: u32) -> Stock {
        let row = self.get(Step::Stock, &[warehouse.into(), item.into()]);
        let [quantity, year_to_date, orders, remote_orders] = row.map(|number| number as u32);
        Stock { quantity, year_to_date, orders, remote_orders }
    }

    fn customer(&mut self, at: Place, customer: u32) -> Customer {
        let row = self.get(Step::Customer, &key(at, customer));
        let [first, last, discount, is_bad, balance, paid, payments, deliveries, last_order] = row;
        Customer {
            first_name: first as u32,
            last_name: last as u32,
            discount,
            has_bad_credit: is_bad != 0,
            balance: Cents(balance),
            paid: Cents(paid),
            payments: payments as u32,
            deliveries: deliveries as u32,
            last_order: nullable(last_order),
        }
    }

    fn data(&mut self, at: Place, customer: u32) -> Data {
        let mut data = None;
        self.run_with(Step::Data, &key(at, customer), |statement| {
            let (first, length) = unsafe { (sqlite3_column_text(statement, 0), sqlite3_column_bytes(statement, 0)) };
            data = Some(Data::of(unsafe { std::slice::from_raw_parts(first, length as usize) }));
        });
        data.expect("a row that is there")
    }

    fn customer_named(&mut self, at: Place, last_name: u32) -> u32 {
        let mut named = Vec::new();
        self.each(Step::CustomersNamed, &key(at, last_name), |[customer]| named.push(customer as u32));
        named[named.len().div_ceil(2) - 1]
    }

    fn order(&mut self, at: Place, order: u32) -> Option<Order> {
        let [customer, entry, carrier, line_count, is_local] = self.find(Step::Order, &key(at, order))?;
        Some(Order {
            customer: customer as u32,
            entry_date: entry as u32,
            carrier: nullable(carrier),
            line_count: line_count as u32,
            is_all_local: is_local != 0,
            first_line: 0,
        })
    }

    fn lines(&mut self, at: Place, order: u32, into: &mut Vec<OrderLine>) {
        into.clear();
        self.each(Step::Lines, &key(at, order), |row| into.push(line_of(row)));
    }

    fn waiting(&mut self, at: Place) -> Vec<u32> {
        let [w, d, _] = key(at, 0);
        let mut orders = Vec::new();
        self.each(Step::Waiting, &[w, d], |[order]| orders.push(order as u32));
        orders
    }

    fn history(&mut self) -> Vec<History> {
        let mut rows = Vec::new();
        self.each(Step::History, &[], |row| rows.push(history_of(row)));
        rows
    }

    fn pay_warehouse(&mut self, warehouse: u32, amount: Cents) {
        self.act(Step::PayWarehouse, &[warehouse.into(), amount.0]);
    }

    fn pay_district(&mut self, at: Place, amount: Cents) {
        let [w, d, _] = key(at, 0);
        self.act(Step::PayDistrict, &[w, d, amount.0]);
    }

    fn pay_customer(&mut self, at: Place, customer: u32, amount: Cents) -> (Cents, bool) {
        let [w, d, c] = key(at, customer);
        let [balance, is_bad] = self.get(Step::PayCustomer, &[w, d, c, amount.0]);
        (Cents(balance), is_bad != 0)
    }

    fn put_data_left(&mut self, at: Place, customer: u32, front: &[u8]) {
        let [w, d, c] = key(at, customer);
        self.act_with_text(Step::PutDataLeft, &[w, d, c, MAX_DATA as i64], front);
    }

    fn take_number(&mut self, at: Place) -> DistrictRow {
        let [w, d, _] = key(at, 0);
        district_of(self.get(Step::TakeNumber, &[w, d]))
    }

    fn set_last_order(&mut self, at: Place, customer: u32, order: u32) -> i64 {
        let [w, d, c] = key(at, customer);
        let [discount] = self.get(Step::SetLastOrder, &[w, d, c, order.into()]);
        discount
    }

    fn draw(&mut self, warehouse: u32, item: u32, quantity: u32, is_remote: bool) -> u32 {
        let numbers = [warehouse, item, quantity, is_remote.into(), LEAST_STOCK, RESTOCK];
        let [left] = self.get(Step::Draw, &numbers.map(i64::from));
        left as u32
    }

    fn take_waiting(&mut self, at: Place) -> Option<u32> {
        let [w, d, _] = key(at, 0);
        self.find(Step::TakeWaiting, &[w, d]).map(|[order]| order as u32)
    }

    fn set_carrier(&mut self, at: Place, order: u32, carrier: u32) -> u32 {
        let [w, d, o] = key(at, order);
        let [customer] = self.get(Step::SetCarrier, &[w, d, o, carrier.into()]);
        customer as u32
    }

    fn deliver_lines(&mut self, at: Place, order: u32, date: u32) -> Cents {
        let [w, d, o] = key(at, order);
        let mut sum = Cents(0);
        self.each(Step::DeliverLines, &[w, d, o, date.into()], |[amount]| sum += Cents(amount));
        sum
    }

    fn credit(&mut self, at: Place, customer: u32, amount: Cents) {
        let [w, d, c] = key(at, customer);
        self.act(Step::Credit, &[w, d, c, amount.0]);
    }

    fn low_stock(&mut self, at: Place, first: u32, last: u32, threshold: u32) -> u32 {
        let [w, d, _] = key(at, 0);
        let [low] = self.get(Step::LowStock, &[w, d, first.into(), last.into(), threshold.into()]);
        low as u32
    }
}
