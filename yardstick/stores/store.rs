//! What the transactions ask of a store, and how one is filled, and read as a whole for the report.

use crate::scale::Scale;
use crate::tables::{Cents, Customer, Data, District, History, Item, Order, OrderLine, Rows, Stock, Tables, Warehouse};

/// The columns of a warehouse, and of a district. Taxes are in ten-thousandths.
#[derive(Clone, Copy)]
pub struct WarehouseRow {
    pub tax: i64,
    pub year_to_date: Cents,
}

#[derive(Clone, Copy)]
pub struct DistrictRow {
    pub tax: i64,
    pub year_to_date: Cents,
    pub next_order: u32,
}

/// A district of a warehouse.
#[derive(Clone, Copy)]
pub struct Place {
    pub warehouse: u32,
    pub district: u32,
}

/// A store of rows. Each step stands between `begin` and `commit` or `abandon`; rows asked for are there. A step that
/// fails ends the program.
pub trait Store {
    fn begin(&mut self, is_writing: bool);
    fn commit(&mut self);
    /// Ends a transaction with nothing changed.
    fn abandon(&mut self);

    fn add_item(&mut self, item: u32, row: &Item);
    fn add_warehouse(&mut self, warehouse: u32, row: &WarehouseRow);
    fn add_stock(&mut self, warehouse: u32, item: u32, row: &Stock);
    fn add_district(&mut self, at: Place, row: &DistrictRow);
    fn add_customer(&mut self, at: Place, customer: u32, row: &Customer);
    fn add_data(&mut self, at: Place, customer: u32, data: &Data);
    fn add_order(&mut self, at: Place, order: u32, row: &Order);
    /// Adds a row of NEW-ORDER.
    fn add_waiting(&mut self, at: Place, order: u32);
    fn add_line(&mut self, at: Place, order: u32, number: u32, row: &OrderLine);
    fn add_history(&mut self, row: &History);

    fn price(&mut self, item: u32) -> Cents;
    fn warehouse(&mut self, warehouse: u32) -> WarehouseRow;
    fn district(&mut self, at: Place) -> DistrictRow;
    fn stock(&mut self, warehouse: u32, item: u32) -> Stock;
    fn customer(&mut self, at: Place, customer: u32) -> Customer;
    fn data(&mut self, at: Place, customer: u32) -> Data;
    /// The middle one of the customers who have a last name, by first name, rounded up (TPC-C 2.5.2.2).
    fn customer_named(&mut self, at: Place, last_name: u32) -> u32;
    fn order(&mut self, at: Place, order: u32) -> Option<Order>;
    /// The lines of an order, in place of what the vector holds.
    fn lines(&mut self, at: Place, order: u32, into: &mut Vec<OrderLine>);
    fn waiting(&mut self, at: Place) -> Vec<u32>;
    fn history(&mut self) -> Vec<History>;

    fn pay_warehouse(&mut self, warehouse: u32, amount: Cents);
    fn pay_district(&mut self, at: Place, amount: Cents);
    /// Gives the balance behind it, and whether the customer has bad credit.
    fn pay_customer(&mut self, at: Place, customer: u32, amount: Cents) -> (Cents, bool);
    /// Puts a text at the left of C_DATA, and cuts what is then too long.
    fn put_data_left(&mut self, at: Place, customer: u32, front: &[u8]);

    /// Raises the next order's number, and gives the row as it was.
    fn take_number(&mut self, at: Place) -> DistrictRow;
    /// Notes a customer's last order, and gives the discount.
    fn set_last_order(&mut self, at: Place, customer: u32, order: u32) -> i64;
    /// Draws a line's quantity (TPC-C 2.4.2.2), and gives the stock that is left.
    fn draw(&mut self, warehouse: u32, item: u32, quantity: u32, is_remote: bool) -> u32;

    /// Takes the least order of a district out of NEW-ORDER, if there is one.
    fn take_waiting(&mut self, at: Place) -> Option<u32>;
    /// Notes an order's carrier, and gives its customer.
    fn set_carrier(&mut self, at: Place, order: u32, carrier: u32) -> u32;
    /// Notes the date at each line of an order, and gives the sum of their amounts.
    fn deliver_lines(&mut self, at: Place, order: u32, date: u32) -> Cents;
    /// Counts a delivery to a customer, of this amount.
    fn credit(&mut self, at: Place, customer: u32, amount: Cents);

    /// How many items of the orders from one number up to another have less stock than the threshold.
    fn low_stock(&mut self, at: Place, first: u32, last: u32, threshold: u32) -> u32;
}

/// Fills an empty store.
pub fn fill(store: &mut impl Store, tables: &Tables) {
    store.begin(true);
    for (item, row) in (1..).zip(&tables.items.0) {
        store.add_item(item, row);
    }
    for (warehouse, row) in (1..).zip(&tables.warehouses.0) {
        store.add_warehouse(warehouse, &WarehouseRow { tax: row.tax, year_to_date: row.year_to_date });
        for (item, stock) in (1..).zip(&row.stock.0) {
            store.add_stock(warehouse, item, stock);
        }
        for (district, row) in (1..).zip(&row.districts.0) {
            fill_district(store, Place { warehouse, district }, row);
        }
    }
    for row in &tables.history {
        store.add_history(row);
    }
    store.commit();
}

fn fill_district(store: &mut impl Store, at: Place, row: &District) {
    let &District { tax, year_to_date, next_order, .. } = row;
    store.add_district(at, &DistrictRow { tax, year_to_date, next_order });
    for (customer, row) in (1..).zip(&row.customers.0) {
        store.add_customer(at, customer, row);
    }
    for (customer, data) in (1..).zip(&row.data.0) {
        store.add_data(at, customer, data);
    }
    for (number, order) in (1..).zip(&row.orders.0) {
        store.add_order(at, number, order);
        for (place, line) in (1..).zip(&row.lines[order.line_places()]) {
            store.add_line(at, number, place, line);
        }
    }
    for &order in &row.waiting {
        store.add_waiting(at, order);
    }
}

/// All rows of a store, as arrays, but for C_DATA, which the report doesn't look at.
pub fn tables_of(store: &mut impl Store, scale: &Scale) -> Tables {
    store.begin(false);
    let tables = Tables {
        items: Rows::numbered(scale.items, |item| Item { price: store.price(item) }),
        warehouses: Rows::numbered(scale.warehouses, |warehouse| {
            let WarehouseRow { tax, year_to_date } = store.warehouse(warehouse);
            let stock = Rows::numbered(scale.items, |item| store.stock(warehouse, item));
            let districts =
                Rows::numbered(scale.districts, |district| district_of(store, scale, Place { warehouse, district }));
            Warehouse { tax, year_to_date, districts, stock }
        }),
        history: store.history(),
    };
    store.commit();
    tables
}

fn district_of(store: &mut impl Store, scale: &Scale, at: Place) -> District {
    let DistrictRow { tax, year_to_date, next_order } = store.district(at);
    let (mut orders, mut lines, mut of_order) = (Vec::new(), Vec::new(), Vec::new());
    while let Some(order) = store.order(at, orders.len() as u32 + 1) {
        orders.push(Order { first_line: lines.len(), ..order });
        store.lines(at, orders.len() as u32, &mut of_order);
        lines.append(&mut of_order);
    }
    District {
        tax,
        year_to_date,
        next_order,
        customers: Rows::numbered(scale.customers, |customer| store.customer(at, customer)),
        data: Rows(Vec::new()),
        orders: Rows(orders),
        lines,
        waiting: store.waiting(at).into(),
        named: Vec::new(),
    }
}
