//! The transactions over a store: each line that isn't refused is one transaction of it.

use crate::report::report;
use crate::requests::{Key, NewOrder, Payment, Refusal, Request, RequestedLine, Who, read_request};
use crate::scale::Scale;
use crate::script::Answers;
use crate::store::{DistrictRow, Place, Store, tables_of};
use crate::tables::{Cents, History, Order, OrderLine};
use crate::text::Text;

/// How many of a district's orders a Stock-Level looks at (TPC-C 2.8.2.2).
const RECENT_ORDERS: u32 = 20;

pub struct Stored<S> {
    store: S,
    scale: Scale,
    is_reporting: bool,
    commits: u32,
    /// Room for the lines of an order that is asked for, and of one that is read.
    room: Vec<RequestedLine>,
    lines: Vec<OrderLine>,
}

impl<S: Store> Stored<S> {
    pub fn new(store: S, scale: Scale, is_reporting: bool) -> Stored<S> {
        Stored { store, scale, is_reporting, commits: 0, room: Vec::new(), lines: Vec::new() }
    }

    fn done(&mut self, line: Option<&[u8]>, date: u32, text: &mut Text) -> Result<(), Refusal> {
        let mut room = std::mem::take(&mut self.room);
        let done = match read_request(line, &self.scale, &mut room) {
            Ok(request) => self.done_request(request, date, text),
            Err(refusal) => Err(refusal),
        };
        self.room = room;
        done
    }

    fn done_request(&mut self, request: Request, date: u32, text: &mut Text) -> Result<(), Refusal> {
        match request {
            Request::NewOrder(order) => return self.order(&order, date, text),
            Request::Show(key) => {
                self.show(&key, text);
                return Ok(());
            }
            _ if self.commits >= self.scale.commits => return Err(Refusal::CommitsFull),
            Request::Payment(payment) => self.pay(&payment, date, text),
            Request::Delivery { warehouse, carrier } => self.deliver(warehouse, carrier, date, text),
            Request::OrderStatus { warehouse, district, who } => {
                self.tell_status(Place { warehouse, district }, who, text);
            }
            Request::StockLevel { warehouse, district, threshold } => {
                self.tell_level(Place { warehouse, district }, threshold, text);
            }
        }
        self.commits += 1;
        Ok(())
    }

    fn customer_of(&mut self, at: Place, who: Who) -> u32 {
        match who {
            Who::Id(customer) => customer,
            Who::Last(name) => self.store.customer_named(at, name),
        }
    }

    /// Payment (TPC-C 2.5).
    fn pay(&mut self, payment: &Payment, date: u32, text: &mut Text) {
        let &Payment { warehouse, district, customer_warehouse, customer_district, who, amount } = payment;
        let of = Place { warehouse: customer_warehouse, district: customer_district };
        self.store.begin(true);
        self.store.pay_warehouse(warehouse, amount);
        self.store.pay_district(Place { warehouse, district }, amount);
        let customer = self.customer_of(of, who);
        let (balance, has_bad_credit) = self.store.pay_customer(of, customer, amount);
        if has_bad_credit {
            self.store.put_data_left(of, customer, text.data_front(payment, customer));
        }
        self.store.add_history(&History {
            warehouse,
            district,
            customer_warehouse,
            customer_district,
            customer,
            date,
            amount,
        });
        self.store.commit();
        text.payment(payment, customer, balance);
    }

    /// New-Order (TPC-C 2.4).
    fn order(&mut self, new_order: &NewOrder, date: u32, text: &mut Text) -> Result<(), Refusal> {
        let &NewOrder { warehouse, district, customer, lines } = new_order;
        let at = Place { warehouse, district };
        self.store.begin(true);
        let DistrictRow { tax, next_order: order, .. } = self.store.take_number(at);
        let is_full = order > self.scale.orders;
        if is_full || self.commits >= self.scale.commits {
            self.store.abandon();
            return Err(if is_full { Refusal::OrdersFull } else { Refusal::CommitsFull });
        }
        let more = 10_000 + self.store.warehouse(warehouse).tax + tax;
        let less = 10_000 - self.store.set_last_order(at, customer, order);
        let is_all_local = lines.iter().all(|line| line.supply_warehouse == warehouse);
        let line_count = lines.len() as u32;
        self.store.add_order(
            at,
            order,
            &Order { customer, entry_date: date, carrier: None, line_count, is_all_local, first_line: 0 },
        );
        self.store.add_waiting(at, order);
        let amounts = self.amounts_of(lines);
        let amount = Cents(amounts.iter().map(|amount| amount.0).sum());
        text.new_order(new_order, order, amount, Cents(amount.0 * (less * more) / 100_000_000));
        for ((number, line), amount) in (1..).zip(lines).zip(amounts) {
            let left = self.supply(at, order, number, line, amount);
            text.supplied(line, left, amount);
        }
        self.store.commit();
        self.commits += 1;
        Ok(())
    }

    fn amounts_of(&mut self, lines: &[RequestedLine]) -> Vec<Cents> {
        lines.iter().map(|line| Cents(i64::from(line.quantity) * self.store.price(line.item).0)).collect()
    }

    /// Adds a line of an order, and gives the stock that is left.
    fn supply(&mut self, at: Place, order: u32, number: u32, line: &RequestedLine, amount: Cents) -> u32 {
        let &RequestedLine { item, supply_warehouse, quantity } = line;
        let left = self.store.draw(supply_warehouse, item, quantity, supply_warehouse != at.warehouse);
        let row = OrderLine { item, supply_warehouse, delivery_date: None, quantity, amount };
        self.store.add_line(at, order, number, &row);
        left
    }

    /// Delivery (TPC-C 2.7).
    fn deliver(&mut self, warehouse: u32, carrier: u32, date: u32, text: &mut Text) {
        self.store.begin(true);
        text.delivery(warehouse);
        for district in 1..=self.scale.districts {
            let at = Place { warehouse, district };
            let waiting = self.store.take_waiting(at);
            if let Some(order) = waiting {
                let customer = self.store.set_carrier(at, order, carrier);
                let amount = self.store.deliver_lines(at, order, date);
                self.store.credit(at, customer, amount);
            }
            text.delivered(district, waiting);
        }
        self.store.commit();
    }

    /// Order-Status (TPC-C 2.6).
    fn tell_status(&mut self, at: Place, who: Who, text: &mut Text) {
        self.store.begin(false);
        let customer = self.customer_of(at, who);
        let row = self.store.customer(at, customer);
        text.status(at.warehouse, at.district, customer, row.balance);
        let last = row.last_order.and_then(|number| Some((number, self.store.order(at, number)?)));
        if let Some((number, _)) = last {
            self.store.lines(at, number, &mut self.lines);
        }
        self.store.commit();
        text.last_order(last.as_ref().map(|(number, order)| (*number, order, &self.lines[..])));
    }

    /// Stock-Level (TPC-C 2.8).
    fn tell_level(&mut self, at: Place, threshold: u32, text: &mut Text) {
        self.store.begin(false);
        let next = self.store.district(at).next_order;
        let low = self.store.low_stock(at, next.saturating_sub(RECENT_ORDERS).max(1), next - 1, threshold);
        self.store.commit();
        text.level(at.warehouse, at.district, threshold, low);
    }

    fn show(&mut self, key: &Key, text: &mut Text) {
        let store = &mut self.store;
        store.begin(false);
        match *key {
            Key::Warehouse { warehouse } => text.warehouse_row(warehouse, store.warehouse(warehouse).year_to_date),
            Key::District { warehouse, district } => {
                let row = store.district(Place { warehouse, district });
                text.district_row(warehouse, district, row.year_to_date, row.next_order);
            }
            Key::Customer { warehouse, district, customer } => {
                let row = store.customer(Place { warehouse, district }, customer);
                text.customer_row(warehouse, district, customer, &row);
            }
            Key::CustomerData { warehouse, district, customer } => {
                let data = store.data(Place { warehouse, district }, customer);
                text.data_row(warehouse, district, customer, &data);
            }
            Key::Stock { warehouse, item } => text.stock_row(warehouse, item, &store.stock(warehouse, item)),
            Key::Order { warehouse, district, order } => {
                let row = store.order(Place { warehouse, district }, order);
                text.order_row(warehouse, district, order, row.as_ref());
            }
        }
        store.commit();
    }
}

impl<S: Store> Answers for Stored<S> {
    fn answer(&mut self, line: Option<&[u8]>, number: u32, text: &mut Text) {
        if let Err(refusal) = self.done(line, number, text) {
            text.refusal(&refusal, number);
        }
        text.words("\n");
    }

    fn report(&mut self, text: &mut Text) -> bool {
        if !self.is_reporting {
            return true;
        }
        let tables = tables_of(&mut self.store, &self.scale);
        report(&self.scale, &tables, self.commits, text)
    }
}
