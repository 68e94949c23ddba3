#!/usr/bin/env python3
"""Replays log files by their format alone (docs/LOG.md), and prints what `tpcc recover` prints of them.

    replay.py DIR LOGGERS

Reads DIR/log-0, DIR/log-1 and so on, as many as there were loggers, all of one version. The durable epoch D is the
least of their last marks. An entry counts where its epoch is up to D, and no file has a void body that declares it
void. Of each record the newest write counts, the one of the greatest TID. Where there is none, the record is as in the
plain population, in which each customer has paid 10.00 in their district.

Files of version 2 have texts, too: a Payment of a customer with bad credit, every tenth in the plain population, leaves
one in C_DATA (TPC-C 2.5.2.2). This makes them itself, of all entries that count, in the order of their commit numbers,
from the 300 letters x with which each customer begins; an entry is to have just the text that it then has, or none.

Ends with 0, and with 1 where bytes are no log file of that logger, where the files are of several databases or
versions, where a commit is missing, or where one has another text; standard error then has the file, the place of the
first byte that is wrong there, and why, or the commit.
"""

import struct
import sys
from collections import namedtuple
from pathlib import Path

Scale = namedtuple("Scale", "warehouses districts customers items orders commits")
Header = namedtuple("Header", "version logger loggers scale seed")
# An entry, with its writes to the tables that are wanted.
Entry = namedtuple("Entry", "number tid terminal writes")
History = namedtuple("History", "customer customer_district customer_warehouse district warehouse date amount")
Replay = namedtuple("Replay", "scale durable commits newest")

WAREHOUSE, DISTRICT, HISTORY, NEW_ORDER, DATA = 1, 2, 4, 5, 12
# What is shown, and what tells of C_DATA.
WANTED = WAREHOUSE, DISTRICT, HISTORY, DATA
# In files of version 1 stands nothing of C_DATA.
VERSIONS = 1, 2
OPEN, PRESENT, ABSENT = 1, 1, 0
MAX_MARK, MAX_TERMINALS, MAX_WRITES = 2**32 - 2, 16, 200
# A void body has this in place of a mark.
VOID_MARK = 2**64 - 1

BYTE, SHORT, LENGTH, RANGE = struct.Struct("<B"), struct.Struct("<H"), struct.Struct("<Q"), struct.Struct("<QQ")
HEADER, ENTRY, WRITE = struct.Struct("<8sIHH6IQ"), struct.Struct("<QQHH"), struct.Struct("<BIB")


class Damaged(Exception):
    """Why files are no log files of one database."""


class Gap(Damaged):
    """Which commit is missing, or stands twice."""


class OtherData(Damaged):
    """Which commit leaves another text of C_DATA than its Payment, or one without such a Payment."""


def epoch_of(tid):
    return tid >> 32


class Source:
    """The bytes of a file, which are read from the front up to an end."""

    def __init__(self, name, data):
        self.name, self.data, self.at, self.end = name, data, 0, len(data)

    def take(self, form):
        """The numbers that come next, in this form."""
        at, self.at = self.at, self.at + form.size
        if self.at > self.end:
            raise self.damaged(at, f"{form.size} bytes are to stand here, and {self.end - at} do")
        return form.unpack_from(self.data, at)

    def take_text(self, length):
        """So many bytes that come next."""
        (text,) = self.take(struct.Struct(f"{length}s"))
        return text

    def damaged(self, at, why):
        return Damaged(f"{self.name}, byte {at}: {why}")


# ---- The tables of a scale

MONEY, COUNT, DATE = ("q", -(10**13), 10**13), ("Q", 0, 10**9), ("Q", 1, 4 * 10**9)


def up_to(high, low=1):
    return "Q", low, high


class Table:
    """How many places a table has, and its columns: how each is written, and its least and greatest number."""

    def __init__(self, places, *columns):
        self.places = places
        self.form = struct.Struct("<" + "".join(sign for sign, _, _ in columns))
        self.ranges = [(low, high) for _, low, high in columns]

    def read(self, source, number):
        """The columns of a record of this table, whose number this is."""
        at = source.at
        columns = source.take(self.form)
        for place, (column, (low, high)) in enumerate(zip(columns, self.ranges)):
            if not low <= column <= high:
                raise source.damaged(at + 8 * place, f"column {place} of table {number} is {column}")
        return columns


class Texts:
    """How many places C_DATA has, each with a text."""

    LEAST, MOST, FIRST, LAST = 300, 500, ord(" "), ord("~")

    def __init__(self, places):
        self.places = places

    def read(self, source, number):
        """The text of a record of this table, whose number this is."""
        at = source.at
        (length,) = source.take(SHORT)
        if not self.LEAST <= length <= self.MOST:
            raise source.damaged(at, f"a text of {length} bytes in table {number}")
        text = source.take_text(length)
        if min(text) < self.FIRST or max(text) > self.LAST:
            raise source.damaged(at, f"a text in table {number} with bytes that aren't printed")
        return text


def tables_of(scale, version):
    """The tables by number, so far as they have writes in files of a version: ITEM, table 8, has none."""
    warehouses, districts, customers, items, orders, _ = scale
    all_districts = warehouses * districts
    all_customers, all_orders = all_districts * customers, all_districts * orders
    a_customer, a_district, a_warehouse = up_to(customers), up_to(districts), up_to(warehouses)
    texts = {} if version == 1 else {DATA: Texts(all_customers)}
    return {
        WAREHOUSE: Table(warehouses, MONEY),
        DISTRICT: Table(all_districts, MONEY, up_to(orders + 1)),
        3: Table(all_customers, MONEY, MONEY, COUNT, COUNT),
        HISTORY: Table(1, a_customer, a_district, a_warehouse, a_district, a_warehouse, DATE, ("q", 100, 500_000)),
        NEW_ORDER: Table(all_orders),
        6: Table(all_orders, a_customer, DATE, up_to(10, low=0), up_to(15, low=5), up_to(1, low=0)),
        7: Table(all_orders * 15, up_to(items), a_warehouse, up_to(4 * 10**9, low=0), up_to(10), ("q", 0, 999_999)),
        9: Table(warehouses * items, up_to(100, low=10), COUNT, COUNT, COUNT),
        10: Table(all_districts, up_to(orders + 1)),
        11: Table(all_customers, up_to(orders, low=0)),
        **texts,
    }


# ---- The parts of a file


def read_header(source):
    magic, version, logger, loggers, *scale, seed = source.take(HEADER)
    scale = Scale(*scale)
    if magic != b"SILOTPCC" or version not in VERSIONS:
        raise source.damaged(0, "a log file begins with SILOTPCC and version 1 or 2")
    if not (1 <= loggers <= 8 and logger < loggers):
        raise source.damaged(12, f"logger {logger} of {loggers}")
    limits = [(1, 8), (1, 10), (10, 3_000), (20, 100_000), (scale.customers, 100_000), (1, 600_000)]
    for place, (number, (low, high)) in enumerate(zip(scale, limits)):
        if not low <= number <= high:
            raise source.damaged(16 + 4 * place, f"{Scale._fields[place]} is {number}, and not from {low} to {high}")
    return Header(version, logger, loggers, scale, seed)


def read_value(source, number, table, kind):
    """What a write of this kind leaves in a record of a table, or None where it leaves the record absent."""
    if kind == ABSENT and number == NEW_ORDER:
        return None
    if kind != PRESENT:
        raise source.damaged(source.at - 1, f"a write of kind {kind} to table {number}")
    return table.read(source, number)


def read_writes(source, tables, count, wanted):
    """So many writes, which rise by table and place. Gives those to tables that are wanted."""
    found, last, records = [], (0, 0), 0
    for _ in range(count):
        at = source.at
        number, place, kind = source.take(WRITE)
        table = tables.get(number)
        if table is None or place >= table.places:
            raise source.damaged(at, f"table {number} has no place {place}")
        if (number, place) <= last:
            raise source.damaged(at, "writes are to rise by table and place")
        last, records = (number, place), records + (number != HISTORY)
        if records > MAX_WRITES:
            raise source.damaged(at, f"more than {MAX_WRITES} writes")
        value = read_value(source, number, table, kind)
        if number in wanted:
            found.append((number, place, value))
    return found


class LogFile:
    """A log file: its header, the mark of its last body (0 where it has none), its entries in their order, each with
    its writes to the tables that are wanted, and the ranges of epochs that it declares void."""

    def __init__(self, name, data, wanted=WANTED):
        source = Source(name, data)
        self.wanted = wanted
        self.header = read_header(source)
        self.tables = tables_of(self.header.scale, self.header.version)
        self.mark, self.entries, self.voids = 0, [], []
        # The commit number of the last entry in the same body, and the epoch of the last one in the file.
        self.number, self.epoch = 0, 1
        while self.read_gate(source) == OPEN:
            self.read_body(source)

    def read_gate(self, source):
        """What stands in the gate that comes next."""
        return source.take(BYTE)[0]

    def read_body(self, source):
        """A body, which ends in front of the next gate."""
        at = source.at
        (length,) = source.take(LENGTH)
        end = source.at + length - 1
        if length < 9 or end > len(source.data):
            raise source.damaged(at, f"a body of {length} bytes, the gate behind it included")
        source.end = end
        (mark,) = source.take(LENGTH)
        if mark == VOID_MARK:
            mark = self.read_void(source)
        else:
            self.read_entries(source, mark)
        self.mark, source.end = mark, len(source.data)

    def read_void(self, source):
        """The range of a void body. Its end is the mark, too."""
        at = source.at
        low, high = source.take(RANGE)
        if not 1 <= low <= high <= MAX_MARK or high < max(self.mark, self.epoch):
            raise source.damaged(at, f"epochs {low} to {high} void behind the mark {self.mark} and epoch {self.epoch}")
        if source.at < source.end:
            raise source.damaged(source.at, "a void body has no bytes behind its range")
        self.voids.append((low, high))
        return high

    def read_entries(self, source, mark):
        """The entries of a body of this mark."""
        if not self.mark <= mark <= MAX_MARK:
            raise source.damaged(source.at - LENGTH.size, f"the mark {mark} behind the mark {self.mark}")
        self.number = 0
        while source.at < source.end:
            self.read_entry(source, mark)

    def read_entry(self, source, mark):
        """An entry of a body of this mark."""
        at = source.at
        number, tid, terminal, count = source.take(ENTRY)
        epoch, header = epoch_of(tid), self.header
        if not self.number < number <= header.scale.commits:
            raise source.damaged(at, f"commit {number} behind commit {self.number}")
        if tid % 8 or epoch < self.epoch or not self.mark < epoch <= mark + 1:
            raise source.damaged(at + 8, f"the TID {tid}, of epoch {epoch}, behind epoch {self.epoch} in mark {mark}")
        if terminal >= MAX_TERMINALS or terminal % header.loggers != header.logger:
            raise source.damaged(at + 16, f"terminal {terminal} isn't logger {header.logger}'s")
        self.number, self.epoch = number, epoch
        self.entries.append(Entry(number, tid, terminal, read_writes(source, self.tables, count, self.wanted)))


# ---- What several files say


def read_files(folder, loggers):
    """The log files of so many loggers, which are to be of one version, and of one database of the plain population."""
    files = []
    for logger in range(loggers):
        path = Path(folder) / f"log-{logger}"
        file = LogFile(path, path.read_bytes())
        first = files[0].header if files else file.header
        wanted = first._replace(logger=logger, loggers=loggers, seed=0)
        if file.header != wanted:
            raise Damaged(f"{path}: {file.header}, and not {wanted}")
        files.append(file)
    return files


def counts(epoch, durable, voids):
    """Whether the entries of an epoch count."""
    return epoch <= durable and not any(low <= epoch <= high for low, high in voids)


def counted(files):
    """The durable epoch, and the entries that count, by their commit numbers, which are to be 1, 2, 3 and so on."""
    durable = min(file.mark for file in files)
    voids = [span for file in files for span in file.voids]
    entries = [entry for file in files for entry in file.entries if counts(epoch_of(entry.tid), durable, voids)]
    entries.sort(key=lambda entry: entry.number)
    for wanted, entry in enumerate(entries, 1):
        if entry.number > wanted:
            raise Gap(f"commit {wanted} is missing")
        if entry.number < wanted:
            raise Gap(f"commit {entry.number} stands twice")
    return durable, entries


def newest_of(entries):
    """What the newest write of each record leaves, by table and place."""
    newest = {}
    for entry in sorted(entries, key=lambda entry: (entry.tid, entry.number)):
        for table, place, value in entry.writes:
            newest[table, place] = value
    return newest


def replay(folder, loggers):
    """The durable epoch, how many commits count, and what the newest writes leave, by table and place."""
    files = read_files(folder, loggers)
    durable, entries = counted(files)
    scale, version = files[0].header.scale, files[0].header.version
    if version != 1:
        examine_texts(scale, entries)
    return Replay(scale, durable, len(entries), newest_of(entries))


# ---- C_DATA

FIRST_TEXT = b"x" * 300


def has_bad_credit(customer):
    """Whether a customer of the plain population has bad credit (BC)."""
    return customer % 10 == 0


def place_of(scale, row):
    """The place in C_DATA of the customer whom a row of HISTORY is of."""
    district = (row.customer_warehouse - 1) * scale.districts + row.customer_district - 1
    return district * scale.customers + row.customer - 1


def behind(row, text):
    """What a Payment with this row of HISTORY makes of the text of a customer with bad credit."""
    numbers = row.customer, row.customer_district, row.customer_warehouse, row.district, row.warehouse
    front = f"{' '.join(map(str, numbers))} {money(row.amount)}|"
    return (front.encode() + text)[: Texts.MOST]


def texts_left(scale, entry, texts):
    """The texts that an entry is to leave, by place, where these stand, and else the first ones."""
    rows = [History(*value) for table, _, value in entry.writes if table == HISTORY]
    left = {}
    for row in rows:
        if has_bad_credit(row.customer):
            place = place_of(scale, row)
            left[place] = behind(row, texts.get(place, FIRST_TEXT))
    return left


def examine_texts(scale, entries):
    """That entries, in the order of their commits, leave the texts of C_DATA that their Payments do. Gives the texts
    that then stand, by place, where they aren't the first ones."""
    texts = {}
    for entry in entries:
        wanted = texts_left(scale, entry, texts)
        found = {place: text for table, place, text in entry.writes if table == DATA}
        for place in sorted({*wanted, *found}):
            if wanted.get(place) != found.get(place):
                told = f"leaves {found.get(place)} in place {place} of C_DATA, and not {wanted.get(place)}"
                raise OtherData(f"commit {entry.number} {told}")
        texts.update(wanted)
    return texts


# ---- Texts


def money(cents):
    sign = "-" if cents < 0 else ""
    return f"{sign}{abs(cents) // 100}.{abs(cents) % 100:02}"


def text_of(replayed):
    """The lines that `tpcc recover` writes."""
    scale, durable, commits, newest = replayed
    paid = scale.customers * 1_000
    lines = [f"durable {durable}", f"commits {commits}"]
    for warehouse in range(scale.warehouses):
        (year_to_date,) = newest.get((WAREHOUSE, warehouse), (scale.districts * paid,))
        lines.append(f"warehouse {warehouse + 1} ytd {money(year_to_date)}")
        for district in range(scale.districts):
            place = warehouse * scale.districts + district
            year_to_date, next_order = newest.get((DISTRICT, place), (paid, scale.customers + 1))
            lines.append(f"district {warehouse + 1} {district + 1} ytd {money(year_to_date)} next {next_order}")
    return "".join(f"{line}\n" for line in lines)


def main(words):
    if len(words) != 2 or words[1] not in list("12345678"):
        print(__doc__, file=sys.stderr)
        return 2
    try:
        sys.stdout.write(text_of(replay(words[0], int(words[1]))))
    except (Damaged, OSError) as why:
        print(f"replay.py: {why}", file=sys.stderr)
        return 1
    return 0


if __name__ == "__main__":
    sys.exit(main(sys.argv[1:]))
