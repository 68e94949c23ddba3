"""Random scripts for `tpcc script`, with lines that are wrong in any way."""

# The numbers of a scale, as the options of the command line, in their order.
OPTIONS = ("warehouses", "districts", "customers", "items", "orders", "commits")

SYLLABLES = ("BAR", "OUGHT", "ABLE", "PRI", "PRES", "ESE", "ANTI", "CALLY", "ATION", "EING")

# What no number of a line is, or none within its range.
STRANGE = (
    "", "0", "00", "01", "+1", "-1", "-0", "1.", "1 ", " 1", "x", "1x", "0x1", "1_0", "\u0661", "100000", "100001",
    "100002", "4294967295", "4294967296", "18446744073709551616", "9" * 60,
)

STRANGE_AMOUNTS = (
    "", "0.00", "-0.00", "0.99", "1.00", "5000.00", "5000.01", "1", "1.0", "1.000", ".50", "01.00", "+1.00", "-1.00",
    "--1.00", "1,00", "1.-1", "1.+1", "100000000000.00", "100000000000.01", "92233720368547758.07",
    "92233720368547758.08", "92233720368547758.99", "1" * 40 + ".00", "1.00.00", "1e2.00", "x.00", "1.0x",
)

STRANGE_NAMES = ("BAR", "BARBAR", "BARBARBARBAR", "barbarbar", "BARBARBA", "BARBARBARX", "PRIPRESPRI", "EINGEINGEING")

# How many lines are of each of the forms, beside one another.
SHARES = {"payment": 43, "neworder": 45, "delivery": 4, "status": 4, "level": 4, "show": 20}

# The words with which lines begin, and such as may stand there by mistake.
VERBS = (*SHARES, "Payment", "neworders", "", "pay")

TABLES = ("warehouse", "district", "customer", "data", "stock", "order", "item", "")

# How many lines a script has.
COUNTS = (0, 1, 10, 300, 2_000, 8_000)


class Lines:
    """Random lines at a scale, in these shares, of which about so many of a hundred words are strange."""

    def __init__(self, draws, scale, shares, strange):
        self.draws = draws
        self.warehouses, self.districts, self.customers, self.items, self.orders, _ = scale
        self.shares, self.strange = shares, strange

    def is_strange(self):
        return self.draws.random() * 100 < self.strange

    def number(self, high, low=1):
        if not self.is_strange():
            return str(self.draws.randint(low, high))
        return self.draws.choice((self.draws.choice(STRANGE), str(high + 1), str(low - 1)))

    def customer(self):
        """A customer's number: every tenth has bad credit in the plain population, and is wanted oftener than others."""
        if self.draws.random() < 0.3:
            return str(10 * self.draws.randint(1, self.customers // 10))
        return self.number(self.customers)

    def who(self):
        if self.is_strange():
            return self.draws.choice(STRANGE_NAMES)
        if self.draws.random() < 0.4:
            return self.customer()
        name = self.draws.randrange(min(self.customers, 1_000) + (10 if self.is_strange() else 0)) % 1_000
        return "".join(SYLLABLES[int(digit)] for digit in f"{name:03}")

    def amount(self):
        if self.is_strange():
            return self.draws.choice(STRANGE_AMOUNTS)
        cents = self.draws.randint(100, 500_000)
        return f"{cents // 100}.{cents % 100:02}"

    def home(self):
        return [self.number(self.warehouses), self.number(self.districts)]

    def order_line(self):
        words = [self.number(self.items), self.number(self.warehouses), self.number(10)]
        if self.is_strange():
            self.draws.choice((words.pop, words.clear, lambda: words.append("1")))()
        return ":".join(words)

    def order_lines(self):
        count = self.draws.randint(5, 15)
        if self.is_strange():
            count = self.draws.choice((0, 1, 4, 16, 100, 160, 300))
        return [self.order_line() for _ in range(count)]

    def key(self):
        table = self.draws.choice(TABLES if self.is_strange() else TABLES[:6])
        between = [] if table in ("warehouse", "stock") else [self.number(self.districts)]
        behind = [] if table in ("warehouse", "district") else [self.last(table)]
        return [table, self.number(self.warehouses), *between, *behind]

    def last(self, table):
        """The last number of a key of this table."""
        if table in ("customer", "data"):
            return self.customer()
        if table == "stock":
            return self.number(self.items)
        is_early = table == "order" and self.draws.random() < 0.5
        return self.number(min(self.orders, self.customers + 20) if is_early else self.orders)

    def words(self):
        verb = self.draws.choices(list(self.shares), self.shares.values())[0]
        match verb:
            case "payment":
                behind = [*self.home(), *self.home(), self.who(), self.amount()]
            case "neworder":
                behind = [*self.home(), self.number(self.customers), *self.order_lines()]
            case "delivery":
                behind = [self.number(self.warehouses), self.number(10)]
            case "status":
                behind = [*self.home(), self.who()]
            case "level":
                behind = [*self.home(), self.number(20, 10)]
            case _:
                behind = self.key()
        if self.is_strange():
            verb = self.draws.choice(VERBS)
        return [verb, *behind]

    def line(self):
        words = self.words()
        if self.is_strange():
            place = self.draws.randrange(len(words))
            self.draws.choice((lambda: words.pop(place), lambda: words.insert(place, words[place]), words.reverse))()
        line = " ".join(words).encode()
        return self.damaged(line) if self.is_strange() else line

    def damaged(self, line):
        """The line with a byte or its length changed, or no line at all."""
        place = self.draws.randint(0, len(line))
        byte = self.draws.choice((b" ", b"\r", b"\0", b"\t", b":", b"\n", bytes([self.draws.randrange(256)])))
        length = self.draws.choice((1_022, 1_023, 1_024, 1_025, 1_026, 5_000, 140_000))
        return self.draws.choice((
            line[:place],
            line[:place] + byte + line[place:],
            line[:place] + byte + line[place + 1:],
            line + byte,
            line.ljust(length, b"x" if byte == b"\n" else byte),
            b"payment 1 1 1 1 3 " + b"9" * (length - 21) + b".00",
            self.draws.randbytes(self.draws.randrange(40)),
        ))


def script(draws, scale, shares=SHARES, counts=COUNTS):
    """A random script at a scale, mostly of good lines, or of strange ones; with a line feed at its end or without. Its
    lines are of the forms in these shares, as many as one of the counts says."""
    lines = Lines(draws, scale, shares, draws.choice((0, 0.3, 0.3, 2, 10, 40)))
    count = draws.choice(counts)
    text = b"".join(lines.line() + b"\n" for _ in range(count))
    return text[:-1] if draws.random() < 0.3 else text
