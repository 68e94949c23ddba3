//! How large a database is: the options of the command line.

/// The numbers of warehouses, districts a warehouse, customers a district and items, the greatest order number of a
/// district, and the most commits.
pub struct Scale {
    pub warehouses: u32,
    pub districts: u32,
    pub customers: u32,
    pub items: u32,
    pub orders: u32,
    pub commits: u32,
}

impl Scale {
    const DEFAULT: Scale =
        Scale { warehouses: 1, districts: 10, customers: 100, items: 1_000, orders: 3_000, commits: 100_000 };

    /// The scale that options ask for, as `--orders 12000` or `--orders=12000`.
    pub fn from_words(words: impl Iterator<Item = String>) -> Result<Scale, String> {
        let mut scale = Scale::DEFAULT;
        let mut words = words;
        while let Some(word) = words.next() {
            let (name, value) = match word.split_once('=') {
                Some((name, value)) => (name.to_string(), Some(value.to_string())),
                None => (word, words.next()),
            };
            let option = match name.as_str() {
                "--warehouses" => &mut scale.warehouses,
                "--districts" => &mut scale.districts,
                "--customers" => &mut scale.customers,
                "--items" => &mut scale.items,
                "--orders" => &mut scale.orders,
                "--commits" => &mut scale.commits,
                _ => return Err(format!("{name} is no option")),
            };
            *option = value.and_then(|value| value.parse().ok()).ok_or(format!("{name} takes a number"))?;
        }
        scale.within_limits()
    }

    fn within_limits(self) -> Result<Scale, String> {
        let limits = [
            ("warehouses", self.warehouses, 1, 8),
            ("districts", self.districts, 1, 10),
            ("customers", self.customers, 10, 3_000),
            ("items", self.items, 20, 100_000),
            ("orders", self.orders, self.customers, 100_000),
            ("commits", self.commits, 1, 600_000),
        ];
        match limits.iter().find(|(_, number, low, high)| !(low..=high).contains(&number)) {
            Some((name, number, low, high)) => Err(format!("--{name} is {number}: it is to be from {low} to {high}")),
            None => Ok(self),
        }
    }

    pub fn has_district(&self, warehouse: u32, district: u32) -> bool {
        (1..=self.warehouses).contains(&warehouse) && (1..=self.districts).contains(&district)
    }

    /// The place of a district among all, from 0.
    pub fn district_place(&self, warehouse: u32, district: u32) -> usize {
        ((warehouse - 1) * self.districts + district - 1) as usize
    }
}
