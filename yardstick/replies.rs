//! The replies, one line each, and how a line's refusal is told.

use crate::requests::{NewOrder, Payment, Refusal, RequestedLine};
use crate::tables::{Cents, Customer, Data, Order, OrderLine, Stock};
use crate::text::Text;

impl Text {
    /// That the line of this number isn't done.
    pub fn refusal(&mut self, refusal: &Refusal, line: u32) {
        let code = match refusal {
            Refusal::BadInput => "2 line ",
            Refusal::ItemNotValid { .. } => "5 line ",
            Refusal::OrdersFull => "6 line ",
            Refusal::CommitsFull => "7 line ",
            Refusal::BadLine => "14 line ",
        };
        self.words(code).number(line);
        if let Refusal::ItemNotValid { item } = refusal {
            self.words(" item ").number(*item);
        }
    }

    pub fn payment(&mut self, payment: &Payment, customer: u32, balance: Cents) {
        self.words("payment ").number(payment.warehouse).words(" ").number(payment.district);
        self.words(" customer ").number(payment.customer_warehouse).words(" ").number(payment.customer_district);
        self.words(" ").number(customer).words(" balance ").cents(balance);
    }

    /// What a Payment of a customer with bad credit puts at the left of C_DATA (TPC-C 2.5.2.2). It isn't of the reply:
    /// the text is then as before.
    pub fn data_front(&mut self, payment: &Payment, customer: u32) -> &[u8] {
        let length = self.length();
        self.number(customer).words(" ").number(payment.customer_district).words(" ");
        self.number(payment.customer_warehouse).words(" ").number(payment.district).words(" ");
        self.number(payment.warehouse).words(" ").cents(payment.amount).words("|");
        self.cut(length)
    }

    /// The beginning of an order's reply; `supplied` tells each of its lines.
    pub fn new_order(&mut self, new_order: &NewOrder, order: u32, amount: Cents, total: Cents) {
        self.words("neworder ").number(new_order.warehouse).words(" ").number(new_order.district);
        self.words(" ").number(order).words(" customer ").number(new_order.customer);
        self.words(" lines ").cents(amount).words(" total ").cents(total);
    }

    /// A line of an order, with the stock that is left.
    #[inline(always)]
    pub fn supplied(&mut self, line: &RequestedLine, left: u32, amount: Cents) {
        self.words(" ").number(line.item).words(":").number(line.supply_warehouse);
        self.words(":").number(left).words(":").cents(amount);
    }

    /// The beginning of a delivery's reply; `delivered` tells what each district delivers.
    pub fn delivery(&mut self, warehouse: u32) {
        self.words("delivery ").number(warehouse);
    }

    pub fn delivered(&mut self, district: u32, order: Option<u32>) {
        self.words(" ").number(district).words(":").nullable(order);
    }

    /// The beginning of an Order-Status; `last_order` tells the rest.
    pub fn status(&mut self, warehouse: u32, district: u32, customer: u32, balance: Cents) {
        self.words("status ").number(warehouse).words(" ").number(district).words(" ").number(customer);
        self.words(" balance ").cents(balance).words(" order ");
    }

    /// A customer's last order with its lines, or that there is none.
    pub fn last_order<'a>(&mut self, order: Option<(u32, &Order, &'a [OrderLine])>) {
        let Some((number, order, lines)) = order else {
            self.words("none");
            return;
        };
        self.number(number).words(" date ").number(order.entry_date).words(" carrier ").nullable(order.carrier);
        for line in lines {
            self.words(" ").number(line.item).words(":").number(line.supply_warehouse);
            self.words(":").number(line.quantity).words(":").cents(line.amount);
            self.words(":").nullable(line.delivery_date);
        }
    }

    pub fn level(&mut self, warehouse: u32, district: u32, threshold: u32, low: u32) {
        self.words("level ").number(warehouse).words(" ").number(district);
        self.words(" threshold ").number(threshold).words(" low ").number(low);
    }

    pub fn warehouse_row(&mut self, warehouse: u32, year_to_date: Cents) {
        self.words("warehouse ").number(warehouse).words(" ytd ").cents(year_to_date);
    }

    pub fn district_row(&mut self, warehouse: u32, district: u32, year_to_date: Cents, next_order: u32) {
        self.words("district ").number(warehouse).words(" ").number(district);
        self.words(" ytd ").cents(year_to_date).words(" next ").number(next_order);
    }

    pub fn customer_row(&mut self, warehouse: u32, district: u32, customer: u32, row: &Customer) {
        self.words("customer ").number(warehouse).words(" ").number(district).words(" ").number(customer);
        self.words(" balance ").cents(row.balance).words(" paid ").cents(row.paid);
        self.words(" payments ").number(row.payments).words(" deliveries ").number(row.deliveries);
    }

    pub fn data_row(&mut self, warehouse: u32, district: u32, customer: u32, data: &Data) {
        self.words("data ").number(warehouse).words(" ").number(district).words(" ").number(customer);
        self.words(" ").number(data.as_bytes().len() as u32).words(" ").letters(data.as_bytes());
    }

    pub fn stock_row(&mut self, warehouse: u32, item: u32, row: &Stock) {
        self.words("stock ").number(warehouse).words(" ").number(item);
        self.words(" quantity ").number(row.quantity).words(" ytd ").number(row.year_to_date);
        self.words(" orders ").number(row.orders).words(" remote ").number(row.remote_orders);
    }

    pub fn order_row(&mut self, warehouse: u32, district: u32, order: u32, row: Option<&Order>) {
        self.words("order ").number(warehouse).words(" ").number(district).words(" ").number(order);
        let Some(row) = row else {
            self.words(" none");
            return;
        };
        self.words(" customer ").number(row.customer).words(" carrier ").nullable(row.carrier);
        self.words(" lines ").number(row.line_count).words(" local ").number(row.is_all_local.into());
    }
}
