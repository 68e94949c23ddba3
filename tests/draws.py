#!/usr/bin/env python3
"""Prints the rows of seeded populations and the first inputs of decks, from their definitions alone.

    python3 tests/draws.py > crates/tests_drawn/stdout

The program crates/tests_drawn must print the same. This program shares nothing with it: the generator is PCG XSH RR 64/32
(O'Neill 2014), and numbers of a range and shuffles are as the Rust crate rand 0.10 makes them. What isn't drawn is left
out.
"""

from dataclasses import dataclass

WORD = 1 << 32
SEED, INPUTS, LAST_ROWS = 7, 60, 996
POPULATION_STREAM = 1000


@dataclass
class Scale:
    """How many warehouses, districts in each, customers in each of these, and items there are."""

    warehouses: int
    districts: int
    customers: int
    items: int


@dataclass
class Settings:
    """C of NURand for each of its uses, and A."""

    last_name: int
    customer: int
    item: int

    LAST_NAME, CUSTOMER, ITEM = 255, 1023, 8191


ONE_WAREHOUSE, TWO_WAREHOUSES, THREE_WAREHOUSES = Scale(1, 2, 1010, 20), Scale(2, 2, 12, 20), Scale(3, 2, 12, 20)
USUAL, OTHERS = Settings(100, 500, 4000), Settings(255, 7, 1234)
DECKS = (
    (ONE_WAREHOUSE, USUAL, 0),
    (TWO_WAREHOUSES, USUAL, 1),
    (TWO_WAREHOUSES, USUAL, 3),
    (TWO_WAREHOUSES, OTHERS, 1),
    (THREE_WAREHOUSES, USUAL, 4),
)


class Draws:
    """Draws of a stream of a seed."""

    def __init__(self, seed, stream):
        self.increment = (stream << 1 | 1) % (1 << 64)
        self.state = (seed + self.increment) % (1 << 64)
        self.step()

    def step(self):
        self.state = (self.state * 6364136223846793005 + self.increment) % (1 << 64)

    def word(self):
        old = self.state
        self.step()
        shifted, turn = ((old >> 18 ^ old) >> 27) % WORD, old >> 59
        return (shifted >> turn | shifted << (32 - turn)) % WORD

    def below(self, count):
        """Canon's method, with one more word where the first leaves it open."""
        high, low = divmod(self.word() * count, WORD)
        if low > WORD - count and low + (self.word() * count >> 32) >= WORD:
            high += 1
        return high

    def number(self, low, high):
        return low + self.below(high - low + 1)

    def skewed(self, spread, constant, low, high):
        """NURand (TPC-C 2.1.6)."""
        a = self.number(0, spread)
        b = self.number(low, high)
        return ((a | b) + constant) % (high - low + 1) + low

    def happens(self, chance, of):
        return self.number(1, of) <= chance

    def shuffle(self, items):
        """Each item changes places with one of those up to it; one draw serves several places."""
        chunk, left = 0, 1
        for place in range(len(items)):
            choices = place + 1
            if left == 0:
                product, left, following = choices, 1, choices + 1
                while product * following < WORD:
                    product, left, following = product * following, left + 1, following + 1
                chunk = self.below(product)
            left -= 1
            chunk, other = (chunk, chunk) if left == 0 else divmod(chunk, choices)
            items[place], items[other] = items[other], items[place]


class Population:
    """The drawn columns of each table's rows, behind their keys."""

    def __init__(self, scale):
        self.scale, self.draws, self.rows = scale, Draws(SEED, POPULATION_STREAM), {}
        for item in range(1, scale.items + 1):
            self.add("item", item, self.draws.number(100, 10000))
        for warehouse in range(1, scale.warehouses + 1):
            self.add("warehouse", warehouse, self.draws.number(0, 2000))
            for item in range(1, scale.items + 1):
                self.add("stock", warehouse, item, self.draws.number(10, 100))
            for district in range(1, scale.districts + 1):
                self.add_district(warehouse, district)

    def add(self, table, *columns):
        self.rows.setdefault(table, []).append(columns)

    def add_district(self, warehouse, district):
        draws, customers = self.draws, list(range(1, self.scale.customers + 1))
        self.add("district", warehouse, district, draws.number(0, 2000))
        for customer in customers:
            first_name = draws.number(0, 9999)
            last_name = customer - 1 if customer <= 1000 else draws.skewed(Settings.LAST_NAME, USUAL.last_name, 0, 999)
            discount = draws.number(0, 5000)
            credit = "BC" if draws.happens(1, 10) else "GC"
            self.add("customer", warehouse, district, customer, first_name, last_name, discount, credit)
        draws.shuffle(customers)
        for order, customer in enumerate(customers, 1):
            self.add_order(warehouse, district, order, customer)

    def add_order(self, warehouse, district, order, customer):
        draws = self.draws
        is_delivered = order <= 7 * self.scale.customers // 10
        count = draws.number(5, 15)
        carrier = draws.number(1, 10) if is_delivered else 0
        self.add("order", warehouse, district, order, customer, carrier, count)
        for line in range(1, count + 1):
            item = draws.number(1, self.scale.items)
            amount = 0 if is_delivered else draws.number(1, 999999)
            self.add("line", warehouse, district, order, line, item, amount)

    def print(self):
        for table in ("item", "warehouse", "stock", "district", "customer", "order", "line"):
            for columns in self.rows[table]:
                print(table, *columns)

    def print_last(self):
        """The last customers and orders of each district."""
        for table in ("customer", "order"):
            for columns in self.rows[table]:
                if columns[2] >= LAST_ROWS:
                    print(table, *columns)


class Deck:
    """The inputs of a terminal."""

    def __init__(self, scale, settings, terminal, seed=SEED):
        self.scale, self.settings, self.draws = scale, settings, Draws(seed, terminal)
        self.home = terminal % scale.warehouses + 1

    def other_warehouse(self, chance):
        warehouses = self.scale.warehouses
        if not self.draws.happens(chance, 100) or warehouses < 2:
            return None
        return (self.home - 1 + self.draws.number(1, warehouses - 1)) % warehouses + 1

    def district(self):
        return self.draws.number(1, self.scale.districts)

    def customer(self):
        return self.draws.skewed(Settings.CUSTOMER, self.settings.customer, 1, self.scale.customers)

    def who(self):
        if self.draws.happens(60, 100):
            names = min(self.scale.customers, 1000)
            return f"last {self.draws.skewed(Settings.LAST_NAME, self.settings.last_name, 0, names - 1)}"
        return f"id {self.customer()}"

    def next(self, date):
        """The next input, as the words of its line."""
        draws, kind = self.draws, self.draws.number(1, 100)
        if kind <= 45:
            return self.new_order(date)
        if kind <= 88:
            return self.payment(date)
        if kind <= 92:
            return "order-status", date, self.home, self.district(), self.who()
        if kind <= 96:
            return "delivery", date, self.home, draws.number(1, 10)
        return "stock-level", date, self.home, self.district(), draws.number(10, 20)

    def new_order(self, date):
        draws = self.draws
        number, customer = self.district(), self.customer()
        count = draws.number(5, 15)
        is_rolled_back = draws.happens(1, 100)
        lines = []
        for line in range(1, count + 1):
            item = draws.skewed(Settings.ITEM, self.settings.item, 1, self.scale.items)
            supply = self.other_warehouse(1) or self.home
            if is_rolled_back and line == count:
                item = self.scale.items + 1
            lines.append(f"{item}:{supply}:{draws.number(1, 10)}")
        return "new-order", date, self.home, number, customer, *lines

    def payment(self, date):
        number = self.district()
        warehouse, district_of = self.other_warehouse(15), number
        if warehouse is None:
            warehouse = self.home
        else:
            district_of = self.district()
        who = self.who()
        return "payment", date, self.home, number, warehouse, district_of, who, self.draws.number(100, 500000)


if __name__ == "__main__":
    Population(TWO_WAREHOUSES).print()
    Population(ONE_WAREHOUSE).print_last()
    for scale, settings, terminal in DECKS:
        print("deck", scale.warehouses, terminal, settings.last_name, settings.customer, settings.item)
        deck = Deck(scale, settings, terminal)
        for k in range(1, INPUTS + 1):
            print(*deck.next(k))
