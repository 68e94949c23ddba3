//! What a line asks, and how it is read.

use crate::scale::Scale;
use crate::tables::{Cents, LAST_NAMES};

pub enum Request<'a> {
    Payment(Payment),
    NewOrder(NewOrder<'a>),
    Delivery { warehouse: u32, carrier: u32 },
    OrderStatus { warehouse: u32, district: u32, who: Who },
    StockLevel { warehouse: u32, district: u32, threshold: u32 },
    Show(Key),
}

pub struct Payment {
    pub warehouse: u32,
    pub district: u32,
    pub customer_warehouse: u32,
    pub customer_district: u32,
    pub who: Who,
    pub amount: Cents,
}

pub struct NewOrder<'a> {
    pub warehouse: u32,
    pub district: u32,
    pub customer: u32,
    pub lines: &'a [RequestedLine],
}

pub struct RequestedLine {
    pub item: u32,
    pub supply_warehouse: u32,
    pub quantity: u32,
}

/// A customer, by number or by last name.
#[derive(Clone, Copy)]
pub enum Who {
    Id(u32),
    Last(u32),
}

/// A row that is to be shown.
pub enum Key {
    Warehouse { warehouse: u32 },
    District { warehouse: u32, district: u32 },
    Customer { warehouse: u32, district: u32, customer: u32 },
    CustomerData { warehouse: u32, district: u32, customer: u32 },
    Stock { warehouse: u32, item: u32 },
    Order { warehouse: u32, district: u32, order: u32 },
}

/// Why a line isn't done.
pub enum Refusal {
    BadInput,
    ItemNotValid { item: u32 },
    OrdersFull,
    CommitsFull,
    BadLine,
}

/// What a line asks, with room for the lines of an order. No line is one that is too long.
pub fn read_request<'a>(
    line: Option<&[u8]>,
    scale: &Scale,
    room: &'a mut Vec<RequestedLine>,
) -> Result<Request<'a>, Refusal> {
    let request = line.and_then(|line| Words { rest: line }.request(room)).ok_or(Refusal::BadLine)?;
    if !request.is_in_range(scale) {
        return Err(Refusal::BadInput);
    }
    if let Request::NewOrder(order) = &request
        && let Some(line) = order.lines.iter().find(|line| line.item > scale.items)
    {
        return Err(Refusal::ItemNotValid { item: line.item });
    }
    Ok(request)
}

/// What is left of a line. Each word is read with the space before it.
struct Words<'a> {
    rest: &'a [u8],
}

impl Words<'_> {
    /// The request of a line, or nothing where it is in none of the forms.
    fn request<'a>(&mut self, room: &'a mut Vec<RequestedLine>) -> Option<Request<'a>> {
        let request = match self.rest {
            [b'n', ..] => Request::NewOrder(self.new_order(room)?),
            [b'p', ..] => Request::Payment(self.payment()?),
            [b'd', ..] => {
                self.word(b"delivery")?;
                Request::Delivery { warehouse: self.number()?, carrier: self.number()? }
            }
            [b's', b't', ..] => {
                self.word(b"status")?;
                Request::OrderStatus { warehouse: self.number()?, district: self.number()?, who: self.who()? }
            }
            [b'l', ..] => {
                self.word(b"level")?;
                Request::StockLevel { warehouse: self.number()?, district: self.number()?, threshold: self.number()? }
            }
            _ => Request::Show(self.key()?),
        };
        self.rest.is_empty().then_some(request)
    }

    fn payment(&mut self) -> Option<Payment> {
        self.word(b"payment")?;
        Some(Payment {
            warehouse: self.number()?,
            district: self.number()?,
            customer_warehouse: self.number()?,
            customer_district: self.number()?,
            who: self.who()?,
            amount: self.amount()?,
        })
    }

    fn new_order<'a>(&mut self, room: &'a mut Vec<RequestedLine>) -> Option<NewOrder<'a>> {
        self.word(b"neworder")?;
        let (warehouse, district, customer) = (self.number()?, self.number()?, self.number()?);
        room.clear();
        while !self.rest.is_empty() {
            self.word(b" ")?;
            let item = self.digits()?;
            self.word(b":")?;
            let supply_warehouse = self.digits()?;
            self.word(b":")?;
            room.push(RequestedLine { item, supply_warehouse, quantity: self.digits()? });
        }
        Some(NewOrder { warehouse, district, customer, lines: room })
    }

    fn key(&mut self) -> Option<Key> {
        self.word(b"show ")?;
        let end = self.rest.iter().position(|&byte| byte == b' ')?;
        let (table, behind) = self.rest.split_at(end);
        self.rest = behind;
        let warehouse = self.number()?;
        match table {
            b"warehouse" => Some(Key::Warehouse { warehouse }),
            b"district" => Some(Key::District { warehouse, district: self.number()? }),
            b"customer" => Some(Key::Customer { warehouse, district: self.number()?, customer: self.number()? }),
            b"data" => Some(Key::CustomerData { warehouse, district: self.number()?, customer: self.number()? }),
            b"stock" => Some(Key::Stock { warehouse, item: self.number()? }),
            b"order" => Some(Key::Order { warehouse, district: self.number()?, order: self.number()? }),
            _ => None,
        }
    }

    #[inline(always)]
    fn word(&mut self, word: &[u8]) -> Option<()> {
        self.rest = self.rest.strip_prefix(word)?;
        Some(())
    }

    #[inline(always)]
    fn number(&mut self) -> Option<u32> {
        self.word(b" ")?;
        self.digits()
    }

    /// Digits without a leading zero, or 0 alone, as a number of 32 bits.
    #[inline(always)]
    fn digits(&mut self) -> Option<u32> {
        let (number, count) = self.numeral()?;
        if count > 10 {
            return None;
        }
        u32::try_from(number).ok()
    }

    /// Digits without a leading zero, or 0 alone, and how many they are: the number is right where they are at most 19.
    #[inline(always)]
    fn numeral(&mut self) -> Option<(u64, usize)> {
        let (mut number, mut count) = (0_u64, 0);
        while let Some(byte @ b'0'..=b'9') = self.rest.get(count) {
            number = number.wrapping_mul(10).wrapping_add(u64::from(byte - b'0'));
            count += 1;
        }
        if count == 0 || count > 1 && self.rest[0] == b'0' {
            return None;
        }
        self.rest = &self.rest[count..];
        Some((number, count))
    }

    /// An amount, as `12.34` or `-12.34`. One that is too large for the type is read as one that is too large to be
    /// paid.
    fn amount(&mut self) -> Option<Cents> {
        self.word(b" ")?;
        let is_negative = self.word(b"-").is_some();
        let (units, count) = self.numeral()?;
        let [b'.', tens @ b'0'..=b'9', ones @ b'0'..=b'9', rest @ ..] = self.rest else {
            return None;
        };
        self.rest = rest;
        let units = if count > 15 { 1_000_000_000_000_000 } else { units as i64 };
        let cents = units * 100 + i64::from((tens - b'0') * 10 + (ones - b'0'));
        match (is_negative, cents) {
            (true, 0) => None,
            (true, cents) => Some(Cents(-cents)),
            (false, cents) => Some(Cents(cents)),
        }
    }

    /// A customer's number, or a last name: the syllables of three digits (TPC-C 4.3.2.3).
    #[inline(always)]
    fn who(&mut self) -> Option<Who> {
        match self.rest {
            [b' ', b'0'..=b'9', ..] => Some(Who::Id(self.number()?)),
            _ => {
                self.word(b" ")?;
                let (hundreds, tens, ones) = (self.syllable()?, self.syllable()?, self.syllable()?);
                Some(Who::Last(hundreds * 100 + tens * 10 + ones))
            }
        }
    }

    fn syllable(&mut self) -> Option<u32> {
        let (digit, rest) = match self.rest {
            [b'B', b'A', b'R', rest @ ..] => (0, rest),
            [b'O', b'U', b'G', b'H', b'T', rest @ ..] => (1, rest),
            [b'A', b'B', b'L', b'E', rest @ ..] => (2, rest),
            [b'P', b'R', b'I', rest @ ..] => (3, rest),
            [b'P', b'R', b'E', b'S', rest @ ..] => (4, rest),
            [b'E', b'S', b'E', rest @ ..] => (5, rest),
            [b'A', b'N', b'T', b'I', rest @ ..] => (6, rest),
            [b'C', b'A', b'L', b'L', b'Y', rest @ ..] => (7, rest),
            [b'A', b'T', b'I', b'O', b'N', rest @ ..] => (8, rest),
            [b'E', b'I', b'N', b'G', rest @ ..] => (9, rest),
            _ => return None,
        };
        self.rest = rest;
        Some(digit)
    }
}

impl Request<'_> {
    /// Whether each number is in its range.
    fn is_in_range(&self, scale: &Scale) -> bool {
        match self {
            Request::Payment(payment) => payment.is_in_range(scale),
            Request::NewOrder(order) => order.is_in_range(scale),
            Request::Delivery { warehouse, carrier } => {
                (1..=scale.warehouses).contains(warehouse) && (1..=10).contains(carrier)
            }
            Request::OrderStatus { warehouse, district, who } => {
                scale.has_district(*warehouse, *district) && who.is_in_range(scale)
            }
            Request::StockLevel { warehouse, district, threshold } => {
                scale.has_district(*warehouse, *district) && (10..=20).contains(threshold)
            }
            Request::Show(key) => key.is_in_range(scale),
        }
    }
}

impl Payment {
    fn is_in_range(&self, scale: &Scale) -> bool {
        scale.has_district(self.warehouse, self.district)
            && scale.has_district(self.customer_warehouse, self.customer_district)
            && self.who.is_in_range(scale)
            && (Cents(100)..=Cents(500_000)).contains(&self.amount)
    }
}

impl NewOrder<'_> {
    fn is_in_range(&self, scale: &Scale) -> bool {
        scale.has_district(self.warehouse, self.district)
            && (1..=scale.customers).contains(&self.customer)
            && (5..=15).contains(&self.lines.len())
            && self.lines.iter().all(|line| line.is_in_range(scale))
    }
}

impl RequestedLine {
    /// An item may be one that isn't in ITEM.
    fn is_in_range(&self, scale: &Scale) -> bool {
        (1..=100_001).contains(&self.item)
            && (1..=scale.warehouses).contains(&self.supply_warehouse)
            && (1..=10).contains(&self.quantity)
    }
}

impl Who {
    fn is_in_range(self, scale: &Scale) -> bool {
        match self {
            Who::Id(customer) => (1..=scale.customers).contains(&customer),
            Who::Last(name) => name < scale.customers && name < LAST_NAMES,
        }
    }
}

impl Key {
    fn is_in_range(&self, scale: &Scale) -> bool {
        match *self {
            Key::Warehouse { warehouse } => (1..=scale.warehouses).contains(&warehouse),
            Key::District { warehouse, district } => scale.has_district(warehouse, district),
            Key::Customer { warehouse, district, customer } | Key::CustomerData { warehouse, district, customer } => {
                scale.has_district(warehouse, district) && (1..=scale.customers).contains(&customer)
            }
            Key::Stock { warehouse, item } => {
                (1..=scale.warehouses).contains(&warehouse) && (1..=scale.items).contains(&item)
            }
            Key::Order { warehouse, district, order } => {
                scale.has_district(warehouse, district) && (1..=scale.orders).contains(&order)
            }
        }
    }
}
