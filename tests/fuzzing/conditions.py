"""The consistency conditions (TPC-C 3.3.2) of the tables that entries leave of the plain population (docs/LOG.md)."""

from collections import defaultdict, namedtuple

import replay

WAREHOUSE, DISTRICT, CUSTOMER, HISTORY, NEW_ORDER, ORDER, ORDER_LINE = range(1, 8)
WANTED = WAREHOUSE, DISTRICT, CUSTOMER, HISTORY, NEW_ORDER, ORDER, ORDER_LINE
CONDITIONS = *range(1, 11), 12

FIRST_PAYMENT, FIRST_LINES = 1_000, 5

Customer = namedtuple("Customer", "balance paid payments deliveries")
Order = namedtuple("Order", "customer date carrier line_count is_local")
Line = namedtuple("Line", "item supply date quantity amount")


class Tables:
    """The rows that conditions speak of, by warehouse, district and number, all from 1: first those of the plain
    population, then what entries leave of them."""

    def __init__(self, scale, entries):
        self.scale = scale
        self.districts = [
            (warehouse, district)
            for warehouse in range(1, scale.warehouses + 1)
            for district in range(1, scale.districts + 1)
        ]
        paid = scale.customers * FIRST_PAYMENT
        self.warehouse_paid = {key: scale.districts * paid for key in range(1, scale.warehouses + 1)}
        self.district_paid = dict.fromkeys(self.districts, paid)
        self.next_order = dict.fromkeys(self.districts, scale.customers + 1)
        self.customers, self.orders, self.lines, self.history = {}, {}, {}, []
        self.waiting = set()
        for key in self.districts:
            for number in range(1, scale.customers + 1):
                self.add_first_rows(key, number)
        for (table, place), columns in replay.newest_of(entries).items():
            self.put(table, place, columns)
        rows = [columns for entry in entries for table, _, columns in entry.writes if table == HISTORY]
        self.history += [replay.History(*columns) for columns in rows]

    def add_first_rows(self, key, number):
        """A customer, what they have paid, and the order that has their number."""
        self.customers[*key, number] = Customer(-FIRST_PAYMENT, FIRST_PAYMENT, 1, 0)
        self.history.append(replay.History(number, key[1], key[0], key[1], key[0], 1, FIRST_PAYMENT))
        done = number <= 7 * self.scale.customers // 10
        self.orders[*key, number] = Order(number, 1, int(done), FIRST_LINES, 1)
        for line in range(1, FIRST_LINES + 1):
            self.lines[*key, number, line] = Line(line, key[0], int(done), 5, 0 if done else line * 100)
        if not done:
            self.waiting.add((*key, number))

    def put(self, table, place, columns):
        """The newest write to a record."""
        scale = self.scale
        if table == WAREHOUSE:
            (self.warehouse_paid[place + 1],) = columns
        elif table == DISTRICT:
            key = self.districts[place]
            self.district_paid[key], self.next_order[key] = columns
        elif table == CUSTOMER:
            self.customers[self.key(place, scale.customers)] = Customer(*columns)
        elif table == NEW_ORDER:
            (self.waiting.discard if columns is None else self.waiting.add)(self.key(place, scale.orders))
        elif table == ORDER:
            self.orders[self.key(place, scale.orders)] = Order(*columns)
        elif table == ORDER_LINE:
            order, line = divmod(place, 15)
            self.lines[*self.key(order, scale.orders), line + 1] = Line(*columns)

    def key(self, place, count):
        """The district and number of a place in a table of so many rows a district."""
        district, number = divmod(place, count)
        return *self.districts[district], number + 1


class Sums:
    """What is summed or counted over rows, by group."""

    def __init__(self, tables):
        self.numbers, self.waiting = defaultdict(list), defaultdict(list)
        self.line_counts, self.lines, self.lines_of = defaultdict(int), defaultdict(int), defaultdict(int)
        self.delivered, self.by_place, self.by_customer = defaultdict(int), defaultdict(int), defaultdict(int)
        for key, order in tables.orders.items():
            self.numbers[key[:2]].append(key[2])
            self.line_counts[key[:2]] += order.line_count
        for key in tables.waiting:
            self.waiting[key[:2]].append(key[2])
        for key, line in tables.lines.items():
            self.lines[key[:2]] += 1
            self.lines_of[key[:3]] += 1
            if line.date and key[:3] in tables.orders:
                self.delivered[*key[:2], tables.orders[key[:3]].customer] += line.amount
        for row in tables.history:
            self.by_place[row.warehouse] += row.amount
            self.by_place[row.warehouse, row.district] += row.amount
            self.by_customer[row.customer_warehouse, row.customer_district, row.customer] += row.amount


def broken(tables):
    """For each condition the keys that break it, in no order."""
    sums, found = Sums(tables), defaultdict(list)

    def expect(condition, key, holds):
        if not holds:
            found[condition].append(key)

    for warehouse, paid in tables.warehouse_paid.items():
        of_districts = sum(tables.district_paid[key] for key in tables.districts if key[0] == warehouse)
        expect(1, (warehouse,), paid == of_districts)
        expect(8, (warehouse,), paid == sums.by_place[warehouse])
    for key in tables.districts:
        waiting, next_order = sums.waiting[key], tables.next_order[key]
        is_last = not waiting or max(waiting) + 1 == next_order
        expect(2, key, max(sums.numbers[key], default=0) + 1 == next_order and is_last)
        expect(3, key, not waiting or max(waiting) - min(waiting) + 1 == len(waiting))
        expect(4, key, sums.line_counts[key] == sums.lines[key])
        expect(9, key, tables.district_paid[key] == sums.by_place[key])
    for key, order in tables.orders.items():
        expect(5, key, (not order.carrier) == (key in tables.waiting))
        expect(6, key, order.line_count == sums.lines_of[key])
    for key, line in tables.lines.items():
        order = tables.orders.get(key[:3])
        expect(7, key, (not line.date) == (not order or not order.carrier))
    for key, customer in tables.customers.items():
        expect(10, key, customer.balance == sums.delivered[key] - sums.by_customer[key])
        expect(12, key, customer.balance + customer.paid == sums.delivered[key])
    return found


def report(scale, entries):
    """The lines of the report on what entries leave, and whether all conditions hold."""
    found = broken(Tables(scale, entries))
    lines = []
    for condition in CONDITIONS:
        keys = found.get(condition)
        state = "broken " + " ".join(map(str, min(keys))) if keys else "ok"
        lines.append(f"C{condition} {state}\n")
    return "".join(lines), not found
