//! The consistency conditions (TPC-C 3.3.2), and the report on them.

use crate::scale::Scale;
use crate::tables::{Cents, District, Order, Tables};
use crate::text::Text;

/// The conditions that are checked, by their numbers.
const CONDITIONS: [usize; 11] = [1, 2, 3, 4, 5, 6, 7, 8, 9, 10, 12];

/// For each condition the least key that breaks it, if one does.
#[derive(Default)]
struct Broken {
    keys: [Option<Vec<u32>>; 13],
}

impl Broken {
    /// Notes that a condition is to hold at a key. Keys come in their order.
    fn expect(&mut self, condition: usize, key: &[u32], holds: bool) {
        if !holds {
            self.keys[condition].get_or_insert_with(|| key.to_vec());
        }
    }
}

/// The sums of H_AMOUNT by warehouse, by district, and by customer.
struct Paid {
    by_warehouse: Vec<Cents>,
    by_district: Vec<Cents>,
    by_customer: Vec<Cents>,
}

/// Writes how many transactions were committed, and for each condition whether it holds. Tells whether all do.
pub fn report(scale: &Scale, tables: &Tables, commits: u32, text: &mut Text) -> bool {
    let broken = check(scale, tables);
    text.words("commits ").number(commits).words("\n");
    for condition in CONDITIONS {
        text.words("C").number(condition as u32);
        match &broken.keys[condition] {
            None => text.words(" ok\n"),
            Some(key) => {
                text.words(" broken");
                for number in key {
                    text.words(" ").number(*number);
                }
                text.words("\n")
            }
        };
    }
    broken.keys.iter().all(Option::is_none)
}

fn check(scale: &Scale, tables: &Tables) -> Broken {
    let mut broken = Broken::default();
    let paid = Paid::of(scale, tables);
    for (warehouse, row) in (1..).zip(&tables.warehouses.0) {
        let of_districts = row.districts.0.iter().map(|district| district.year_to_date.0).sum();
        broken.expect(1, &[warehouse], row.year_to_date == Cents(of_districts));
        broken.expect(8, &[warehouse], row.year_to_date == paid.by_warehouse[warehouse as usize - 1]);
        for (district, row) in (1..).zip(&row.districts.0) {
            let place = scale.district_place(warehouse, district);
            broken.expect(9, &[warehouse, district], row.year_to_date == paid.by_district[place]);
            check_numbers(&mut broken, [warehouse, district], row);
            let delivered = check_orders(&mut broken, [warehouse, district], row);
            let customers = place * scale.customers as usize;
            let paid = &paid.by_customer[customers..customers + scale.customers as usize];
            check_customers(&mut broken, [warehouse, district], row, &delivered, paid);
        }
    }
    broken
}

/// Conditions 2, 3 and 4.
fn check_numbers(broken: &mut Broken, key: [u32; 2], district: &District) {
    let greatest = district.orders.0.len() as u32;
    let (first, last) = (district.waiting.iter().min(), district.waiting.iter().max());
    let is_last = last.is_none_or(|&last| last + 1 == district.next_order);
    broken.expect(2, &key, greatest + 1 == district.next_order && is_last);
    let waiting = first.zip(last).map_or(0, |(first, last)| last - first + 1);
    broken.expect(3, &key, waiting as usize == district.waiting.len());
    let line_counts: u32 = district.orders.0.iter().map(|order| order.line_count).sum();
    broken.expect(4, &key, line_counts as usize == district.lines.len());
}

/// Conditions 5, 6 and 7. Gives for each customer the sum of OL_AMOUNT over its delivered lines.
fn check_orders(broken: &mut Broken, [warehouse, district]: [u32; 2], row: &District) -> Vec<Cents> {
    let mut is_waiting = vec![false; row.orders.0.len()];
    for &order in &row.waiting {
        is_waiting[order as usize - 1] = true;
    }
    let mut delivered = vec![Cents(0); row.customers.0.len()];
    for (place, order) in row.orders.0.iter().enumerate() {
        let key = [warehouse, district, place as u32 + 1];
        broken.expect(5, &key, order.carrier.is_none() == is_waiting[place]);
        let end = row.orders.0.get(place + 1).map_or(row.lines.len(), |next: &Order| next.first_line);
        broken.expect(6, &key, order.line_count as usize == end - order.first_line);
        for (number, line) in (1..).zip(&row.lines[order.first_line..end]) {
            let is_undelivered = line.delivery_date.is_none();
            broken.expect(7, &[key[0], key[1], key[2], number], is_undelivered == order.carrier.is_none());
            if !is_undelivered {
                delivered[order.customer as usize - 1] += line.amount;
            }
        }
    }
    delivered
}

/// Conditions 10 and 12.
fn check_customers(
    broken: &mut Broken,
    [warehouse, district]: [u32; 2],
    row: &District,
    delivered: &[Cents],
    paid: &[Cents],
) {
    for (place, customer) in row.customers.0.iter().enumerate() {
        let key = [warehouse, district, place as u32 + 1];
        broken.expect(10, &key, customer.balance.0 == delivered[place].0 - paid[place].0);
        broken.expect(12, &key, customer.balance.0 + customer.paid.0 == delivered[place].0);
    }
}

impl Paid {
    fn of(scale: &Scale, tables: &Tables) -> Paid {
        let districts = (scale.warehouses * scale.districts) as usize;
        let mut paid = Paid {
            by_warehouse: vec![Cents(0); scale.warehouses as usize],
            by_district: vec![Cents(0); districts],
            by_customer: vec![Cents(0); districts * scale.customers as usize],
        };
        for row in &tables.history {
            paid.by_warehouse[row.warehouse as usize - 1] += row.amount;
            paid.by_district[scale.district_place(row.warehouse, row.district)] += row.amount;
            let district = scale.district_place(row.customer_warehouse, row.customer_district);
            paid.by_customer[district * scale.customers as usize + row.customer as usize - 1] += row.amount;
        }
        paid
    }
}
