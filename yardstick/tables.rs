//! The tables as arrays (TPC-C 1.3), and the plain population that they begin with.

use crate::scale::Scale;
use std::collections::VecDeque;
use std::ops::{AddAssign, Index, IndexMut, Range, SubAssign};

/// How many last names there are (TPC-C 4.3.2.3).
pub const LAST_NAMES: u32 = 1_000;

/// Rows by their numbers, which begin at 1.
pub struct Rows<T>(pub Vec<T>);

impl<T> Rows<T> {
    /// A row for each number up to this one.
    pub fn numbered(count: u32, row: impl FnMut(u32) -> T) -> Rows<T> {
        Rows((1..=count).map(row).collect())
    }
}

impl<T> Index<u32> for Rows<T> {
    type Output = T;

    fn index(&self, number: u32) -> &T {
        &self.0[number as usize - 1]
    }
}

impl<T> IndexMut<u32> for Rows<T> {
    fn index_mut(&mut self, number: u32) -> &mut T {
        &mut self.0[number as usize - 1]
    }
}

/// An amount of money in whole cents.
#[derive(Clone, Copy, Debug, Default, PartialEq, Eq, PartialOrd, Ord)]
pub struct Cents(pub i64);

impl AddAssign for Cents {
    fn add_assign(&mut self, other: Cents) {
        self.0 += other.0;
    }
}

impl SubAssign for Cents {
    fn sub_assign(&mut self, other: Cents) {
        self.0 -= other.0;
    }
}

pub struct Tables {
    pub warehouses: Rows<Warehouse>,
    pub items: Rows<Item>,
    pub history: Vec<History>,
}

/// Taxes and discounts are in ten-thousandths.
pub struct Warehouse {
    pub tax: i64,
    pub year_to_date: Cents,
    pub districts: Rows<District>,
    pub stock: Rows<Stock>,
}

pub struct District {
    pub tax: i64,
    pub year_to_date: Cents,
    pub next_order: u32,
    pub customers: Rows<Customer>,
    /// C_DATA of each.
    pub data: Rows<Data>,
    pub orders: Rows<Order>,
    /// The lines of all orders, one order behind the other.
    pub lines: Vec<OrderLine>,
    /// NEW-ORDER: the numbers of the orders that wait for their delivery.
    pub waiting: VecDeque<u32>,
    /// For each last name the customers who have it, by their first names.
    pub named: Vec<Vec<u32>>,
}

#[derive(Clone, Copy)]
pub struct Customer {
    pub first_name: u32,
    pub last_name: u32,
    pub discount: i64,
    pub has_bad_credit: bool,
    pub balance: Cents,
    pub paid: Cents,
    pub payments: u32,
    pub deliveries: u32,
    /// The number of the last order, if there is one.
    pub last_order: Option<u32>,
}

/// C_DATA of a customer. The bytes behind its length are room.
#[derive(Clone, Copy)]
pub struct Data {
    length: u16,
    bytes: [u8; MAX_DATA],
}

#[derive(Clone, Copy)]
pub struct Order {
    pub customer: u32,
    pub entry_date: u32,
    pub carrier: Option<u32>,
    pub line_count: u32,
    pub is_all_local: bool,
    /// Where its lines begin among those of the district.
    pub first_line: usize,
}

#[derive(Clone, Copy)]
pub struct OrderLine {
    pub item: u32,
    pub supply_warehouse: u32,
    pub delivery_date: Option<u32>,
    pub quantity: u32,
    pub amount: Cents,
}

#[derive(Clone, Copy)]
pub struct Item {
    pub price: Cents,
}

#[derive(Clone, Copy)]
pub struct Stock {
    pub quantity: u32,
    pub year_to_date: u32,
    pub orders: u32,
    pub remote_orders: u32,
}

#[derive(Clone, Copy)]
pub struct History {
    pub warehouse: u32,
    pub district: u32,
    pub customer_warehouse: u32,
    pub customer_district: u32,
    pub customer: u32,
    /// Kept as the standard wants it. Nothing reads it.
    #[allow(dead_code)]
    pub date: u32,
    pub amount: Cents,
}

/// The least stock that a line may leave, and what the stock rises by where it would leave less (TPC-C 2.4.2.2).
pub const LEAST_STOCK: u32 = 10;

pub const RESTOCK: u32 = 91;

/// The letters `x` of each customer's C_DATA at first (TPC-C 4.3.3.1 draws texts of at least so many).
const FIRST_DATA: usize = 300;

/// The most bytes of C_DATA.
pub const MAX_DATA: usize = 500;

/// What each customer has paid at first.
const FIRST_PAYMENT: Cents = Cents(1_000);

/// The lines of each first order.
const FIRST_LINES: u32 = 5;

impl Tables {
    /// The rows that a database begins with, in which no column is drawn.
    pub fn plain(scale: &Scale) -> Tables {
        let mut history = Vec::new();
        for warehouse in 1..=scale.warehouses {
            for district in 1..=scale.districts {
                history.extend((1..=scale.customers).map(|customer| History {
                    warehouse,
                    district,
                    customer_warehouse: warehouse,
                    customer_district: district,
                    customer,
                    date: 1,
                    amount: FIRST_PAYMENT,
                }));
            }
        }
        Tables {
            warehouses: Rows::numbered(scale.warehouses, |warehouse| Warehouse::plain(scale, warehouse)),
            items: Rows::numbered(scale.items, |item| Item { price: Cents(i64::from((item - 1) % 100 + 1) * 100) }),
            history,
        }
    }
}

impl Warehouse {
    fn plain(scale: &Scale, warehouse: u32) -> Warehouse {
        Warehouse {
            tax: 1_000,
            year_to_date: Cents(i64::from(scale.districts * scale.customers) * FIRST_PAYMENT.0),
            districts: Rows::numbered(scale.districts, |_| District::plain(scale, warehouse)),
            stock: Rows::numbered(scale.items, |_| Stock {
                quantity: 50,
                year_to_date: 0,
                orders: 0,
                remote_orders: 0,
            }),
        }
    }
}

impl District {
    fn plain(scale: &Scale, warehouse: u32) -> District {
        let delivered = 7 * scale.customers / 10;
        let mut district = District {
            tax: 500,
            year_to_date: Cents(i64::from(scale.customers) * FIRST_PAYMENT.0),
            next_order: scale.customers + 1,
            customers: Rows::numbered(scale.customers, Customer::plain),
            data: Rows::numbered(scale.customers, |_| Data::of(&[b'x'; FIRST_DATA])),
            orders: Rows(Vec::new()),
            lines: Vec::new(),
            waiting: (delivered + 1..=scale.customers).collect(),
            named: Vec::new(),
        };
        for order in 1..=scale.customers {
            district.add_first_order(warehouse, order, order <= delivered);
        }
        district.name_customers();
        district
    }

    /// The first order of the customer of its number.
    fn add_first_order(&mut self, warehouse: u32, order: u32, is_delivered: bool) {
        let delivery = is_delivered.then_some(1);
        self.orders.0.push(Order {
            customer: order,
            entry_date: 1,
            carrier: delivery,
            line_count: FIRST_LINES,
            is_all_local: true,
            first_line: self.lines.len(),
        });
        self.lines.extend((1..=FIRST_LINES).map(|number| OrderLine {
            item: number,
            supply_warehouse: warehouse,
            delivery_date: delivery,
            quantity: 5,
            amount: if is_delivered { Cents(0) } else { Cents(i64::from(number) * 100) },
        }));
    }

    fn name_customers(&mut self) {
        let mut by_first_name: Vec<u32> = (1..=self.customers.0.len() as u32).collect();
        by_first_name.sort_by_key(|&customer| (self.customers[customer].first_name, customer));
        self.named = vec![Vec::new(); LAST_NAMES as usize];
        for customer in by_first_name {
            self.named[self.customers[customer].last_name as usize].push(customer);
        }
    }

    /// The middle one of the customers who have a last name, rounded up (TPC-C 2.5.2.2). Somebody has it.
    pub fn customer_named(&self, last_name: u32) -> u32 {
        let named = &self.named[last_name as usize];
        named[named.len().div_ceil(2) - 1]
    }
}

impl Data {
    pub fn of(text: &[u8]) -> Data {
        let mut data = Data { length: text.len() as u16, bytes: [0; MAX_DATA] };
        data.bytes[..text.len()].copy_from_slice(text);
        data
    }

    pub fn as_bytes(&self) -> &[u8] {
        &self.bytes[..self.length.into()]
    }

    /// Puts a text at the left, and cuts what is then too long (TPC-C 2.5.2.2).
    pub fn put_left(&mut self, front: &[u8]) {
        let kept = usize::from(self.length).min(MAX_DATA - front.len());
        self.bytes.copy_within(..kept, front.len());
        self.bytes[..front.len()].copy_from_slice(front);
        self.length = (front.len() + kept) as u16;
    }
}

impl Order {
    /// The places of its lines among those of the district.
    pub fn line_places(&self) -> Range<usize> {
        self.first_line..self.first_line + self.line_count as usize
    }
}

impl Stock {
    /// Draws a line's quantity (TPC-C 2.4.2.2).
    pub fn draw(&mut self, quantity: u32, is_remote: bool) {
        if self.quantity < quantity + LEAST_STOCK {
            self.quantity += RESTOCK;
        }
        self.quantity -= quantity;
        self.year_to_date += quantity;
        self.orders += 1;
        self.remote_orders += u32::from(is_remote);
    }
}

impl Customer {
    fn plain(customer: u32) -> Customer {
        Customer {
            first_name: 9_999 - customer,
            last_name: (customer - 1) % LAST_NAMES,
            discount: 1_000,
            has_bad_credit: customer % 10 == 0,
            balance: Cents(-FIRST_PAYMENT.0),
            paid: FIRST_PAYMENT,
            payments: 1,
            deliveries: 0,
            last_order: Some(customer),
        }
    }
}
