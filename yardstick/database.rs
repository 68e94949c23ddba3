//! The transactions (TPC-C 2.4 to 2.8), each of which changes the tables and tells its reply.

use crate::report::report;
use crate::requests::{Key, NewOrder, Payment, Refusal, Request, RequestedLine, Who, read_request};
use crate::scale::Scale;
use crate::script::Answers;
use crate::tables::{Cents, District, History, Order, OrderLine, Tables};
use crate::text::Text;

/// How many of a district's orders a Stock-Level looks at (TPC-C 2.8.2.2).
const RECENT_ORDERS: usize = 20;

pub struct Database {
    scale: Scale,
    tables: Tables,
    commits: u32,
    /// Room for the lines of an order.
    room: Vec<RequestedLine>,
}

impl Database {
    pub fn plain(scale: Scale) -> Database {
        let tables = Tables::plain(&scale);
        Database { scale, tables, commits: 0, room: Vec::new() }
    }

    fn done(&mut self, line: Option<&[u8]>, date: u32, text: &mut Text) -> Result<(), Refusal> {
        let Database { scale, tables, commits, room } = self;
        let request = read_request(line, scale, room)?;
        if let Request::NewOrder(order) = &request
            && tables.warehouses[order.warehouse].districts[order.district].next_order > scale.orders
        {
            return Err(Refusal::OrdersFull);
        }
        if !matches!(request, Request::Show(_)) {
            if *commits >= scale.commits {
                return Err(Refusal::CommitsFull);
            }
            *commits += 1;
        }
        match request {
            Request::Payment(payment) => tables.pay(&payment, date, text),
            Request::NewOrder(order) => tables.order(&order, date, text),
            Request::Delivery { warehouse, carrier } => tables.deliver(warehouse, carrier, date, text),
            Request::OrderStatus { warehouse, district, who } => tables.tell_status(warehouse, district, who, text),
            Request::StockLevel { warehouse, district, threshold } => {
                tables.tell_level(warehouse, district, threshold, text)
            }
            Request::Show(key) => tables.show(&key, text),
        }
        Ok(())
    }
}

impl Answers for Database {
    fn answer(&mut self, line: Option<&[u8]>, number: u32, text: &mut Text) {
        if let Err(refusal) = self.done(line, number, text) {
            text.refusal(&refusal, number);
        }
        text.words("\n");
    }

    fn report(&mut self, text: &mut Text) -> bool {
        report(&self.scale, &self.tables, self.commits, text)
    }
}

impl District {
    fn customer_of(&self, who: Who) -> u32 {
        match who {
            Who::Id(customer) => customer,
            Who::Last(name) => self.customer_named(name),
        }
    }
}

impl Tables {
    /// Payment (TPC-C 2.5).
    fn pay(&mut self, payment: &Payment, date: u32, text: &mut Text) {
        let &Payment { warehouse, district, customer_warehouse, customer_district, who, amount } = payment;
        let home = &mut self.warehouses[warehouse];
        home.year_to_date += amount;
        home.districts[district].year_to_date += amount;
        let of = &mut self.warehouses[customer_warehouse].districts[customer_district];
        let customer = of.customer_of(who);
        let row = &mut of.customers[customer];
        row.balance -= amount;
        row.paid += amount;
        row.payments += 1;
        let (balance, has_bad_credit) = (row.balance, row.has_bad_credit);
        if has_bad_credit {
            of.data[customer].put_left(text.data_front(payment, customer));
        }
        self.history.push(History {
            warehouse,
            district,
            customer_warehouse,
            customer_district,
            customer,
            date,
            amount,
        });
        text.payment(payment, customer, balance);
    }

    /// New-Order (TPC-C 2.4).
    fn order(&mut self, new_order: &NewOrder, date: u32, text: &mut Text) {
        let &NewOrder { warehouse, district, customer, lines } = new_order;
        let amount = Cents(lines.iter().map(|line| self.amount_of(line).0).sum());
        let home = &self.warehouses[warehouse];
        let row = &home.districts[district];
        let (less, more) = (10_000 - row.customers[customer].discount, 10_000 + home.tax + row.tax);
        let total = Cents(amount.0 * (less * more) / 100_000_000);
        let order = self.open_order(new_order, date);
        text.new_order(new_order, order, amount, total);
        for line in lines {
            self.supply(warehouse, district, line, text);
        }
    }

    fn amount_of(&self, line: &RequestedLine) -> Cents {
        Cents(i64::from(line.quantity) * self.items[line.item].price.0)
    }

    /// Opens an order whose lines aren't there yet, and gives its number.
    fn open_order(&mut self, new_order: &NewOrder, date: u32) -> u32 {
        let district = &mut self.warehouses[new_order.warehouse].districts[new_order.district];
        let order = district.next_order;
        district.next_order += 1;
        district.waiting.push_back(order);
        district.customers[new_order.customer].last_order = Some(order);
        district.orders.0.push(Order {
            customer: new_order.customer,
            entry_date: date,
            carrier: None,
            line_count: new_order.lines.len() as u32,
            is_all_local: new_order.lines.iter().all(|line| line.supply_warehouse == new_order.warehouse),
            first_line: district.lines.len(),
        });
        order
    }

    /// Adds a line to the last order of a district.
    fn supply(&mut self, warehouse: u32, district: u32, line: &RequestedLine, text: &mut Text) {
        let &RequestedLine { item, supply_warehouse, quantity } = line;
        let amount = self.amount_of(line);
        let stock = &mut self.warehouses[supply_warehouse].stock[item];
        stock.draw(quantity, supply_warehouse != warehouse);
        let left = stock.quantity;
        self.warehouses[warehouse].districts[district].lines.push(OrderLine {
            item,
            supply_warehouse,
            delivery_date: None,
            quantity,
            amount,
        });
        text.supplied(line, left, amount);
    }

    /// Delivery (TPC-C 2.7).
    fn deliver(&mut self, warehouse: u32, carrier: u32, date: u32, text: &mut Text) {
        text.delivery(warehouse);
        for (district, row) in (1..).zip(&mut self.warehouses[warehouse].districts.0) {
            text.delivered(district, row.deliver(carrier, date));
        }
    }

    /// Order-Status (TPC-C 2.6).
    fn tell_status(&self, warehouse: u32, district: u32, who: Who, text: &mut Text) {
        let row = &self.warehouses[warehouse].districts[district];
        let customer = row.customer_of(who);
        text.status(warehouse, district, customer, row.customers[customer].balance);
        text.last_order(row.customers[customer].last_order.map(|number| {
            let order = &row.orders[number];
            (number, order, &row.lines[order.line_places()])
        }));
    }

    /// Stock-Level (TPC-C 2.8).
    fn tell_level(&self, warehouse: u32, district: u32, threshold: u32, text: &mut Text) {
        let home = &self.warehouses[warehouse];
        let row = &home.districts[district];
        let recent = row.orders.0.len().saturating_sub(RECENT_ORDERS);
        let first_line = row.orders.0[recent].first_line;
        let is_low = |&item: &u32| home.stock[item].quantity < threshold;
        let mut items: Vec<u32> = row.lines[first_line..].iter().map(|line| line.item).filter(is_low).collect();
        items.sort_unstable();
        items.dedup();
        text.level(warehouse, district, threshold, items.len() as u32);
    }

    fn show(&self, key: &Key, text: &mut Text) {
        match *key {
            Key::Warehouse { warehouse } => text.warehouse_row(warehouse, self.warehouses[warehouse].year_to_date),
            Key::District { warehouse, district } => {
                let row = &self.warehouses[warehouse].districts[district];
                text.district_row(warehouse, district, row.year_to_date, row.next_order);
            }
            Key::Customer { warehouse, district, customer } => {
                let row = &self.warehouses[warehouse].districts[district].customers[customer];
                text.customer_row(warehouse, district, customer, row);
            }
            Key::CustomerData { warehouse, district, customer } => {
                let data = &self.warehouses[warehouse].districts[district].data[customer];
                text.data_row(warehouse, district, customer, data);
            }
            Key::Stock { warehouse, item } => {
                text.stock_row(warehouse, item, &self.warehouses[warehouse].stock[item]);
            }
            Key::Order { warehouse, district, order } => {
                let row = self.warehouses[warehouse].districts[district].orders.0.get(order as usize - 1);
                text.order_row(warehouse, district, order, row);
            }
        }
    }
}

impl District {
    /// Delivers the order that has waited longest, if one waits, and gives its number.
    fn deliver(&mut self, carrier: u32, date: u32) -> Option<u32> {
        let number = self.waiting.pop_front()?;
        let order = &mut self.orders[number];
        order.carrier = Some(carrier);
        let customer = &mut self.customers[order.customer];
        customer.deliveries += 1;
        for line in &mut self.lines[order.line_places()] {
            line.delivery_date = Some(date);
            customer.balance += line.amount;
        }
        Some(number)
    }
}
