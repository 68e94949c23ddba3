"""Random changes to the writes of a log file. Each takes a log, and changes it where it has such a write."""

import copy

import replay
from fuzzing import conditions
from fuzzing.bodies import Write
from fuzzing.parts import near

# The tables whose writes have columns, if any.
KNOWN = (*conditions.WANTED, 9, 10, 11)


def tables_of(log):
    return replay.tables_of(replay.Scale(*log.numbers[3:9]), log.numbers[0])


def order_of_writes(draws, log):
    """Writes exchanged, doubled or dropped."""
    full = [entry for entry in log.entries() if entry.writes]
    if not full:
        return
    writes = draws.choice(full).writes
    one, other = draws.randrange(len(writes)), draws.randrange(len(writes))
    match draws.randrange(3):
        case 0:
            writes[one], writes[other] = writes[other], writes[one]
        case 1:
            writes.insert(one, copy.deepcopy(writes[one]))
        case 2:
            del writes[one]


def write(draws, log):
    """A table, place or kind that is another."""
    writes = [write for entry in log.entries() for write in entry.writes]
    if not writes:
        return
    tables, one = tables_of(log), draws.choice(writes)
    table = tables.get(one.table)
    places = table.places if table else 1
    match draws.randrange(4):
        case 0:
            one.table = draws.choice((near(draws, one.table), 0, 8, 12, 13))
        case 1:
            one.place = draws.choice((near(draws, one.place), 0, places - 1, places, draws.randrange(places)))
        case 2:
            one.kind = draws.choice((0, 1, 2, 255))
        case 3:
            one.kind, one.columns, one.data = replay.ABSENT, [], None


def newest(draws, log):
    """The newest write of a record in this file, of one table as often as of another; or None."""
    writes = [write for entry in log.entries() for write in entry.writes if write.table in KNOWN]
    if not writes:
        return None
    kept = draws.choice(sorted({write.table for write in writes}))
    # Each row of HISTORY is one more, at the same place.
    rows = [write for write in writes if write.table == kept]
    records = {(write.place, kept == replay.HISTORY and at): write for at, write in enumerate(rows)}
    return draws.choice(list(records.values()))


def column(draws, log):
    """A column that is another, often one at an end of its range or beside it."""
    one, tables = newest(draws, log), tables_of(log)
    if one and one.columns and len(one.columns) == len(tables[one.table].ranges):
        place = draws.randrange(len(one.columns))
        low, high = tables[one.table].ranges[place]
        number = one.columns[place]
        one.columns[place] = draws.choice((number + 1, number - 1, low, high, low - 1, high + 1, near(draws, number)))


def row(draws, log):
    """A row that is another, in its ranges: what is a log file stays one, and a condition may be broken."""
    one, tables = newest(draws, log), tables_of(log)
    if not one:
        return
    if one.table == replay.NEW_ORDER:
        one.kind = replay.ABSENT if one.kind == replay.PRESENT else replay.PRESENT
    elif len(one.columns) == len(tables[one.table].ranges):
        place = draws.randrange(len(one.columns))
        low, high = tables[one.table].ranges[place]
        number = one.columns[place]
        number -= 2**64 if number >= 2**63 else 0
        # Null, or no longer; or near.
        others = [number + 1, number - 1] if low else [0, 0, 1] if number else [1, high]
        another = draws.choice((*others, number + draws.randint(-100, 100)))
        one.columns[place] = min(max(another, low), high)


def data_added(draws, log):
    """A text of C_DATA more, also where files have none."""
    if not (entries := log.entries()):
        return
    scale = replay.Scale(*log.numbers[3:9])
    places = scale.warehouses * scale.districts * scale.customers
    place, length = draws.choice((0, places - 1, places, draws.randrange(places))), draws.choice((300, 500))
    letters = bytes([draws.randrange(32, 127)]) * length
    draws.choice(entries).writes.append(Write(replay.DATA, place, replay.PRESENT, [], letters))


def data(draws, log):
    """A text of C_DATA that is another, in its length, in a byte, or in the length that it is said to have; or one
    more, where there is none."""
    texts = [write for entry in log.entries() for write in entry.writes if write.data]
    if not texts:
        data_added(draws, log)
        return
    one = draws.choice(texts)
    length, at = len(one.data), draws.randrange(len(one.data))
    match draws.randrange(4):
        case 0:
            one.data = (one.data * 2)[: draws.choice((299, 300, 301, 499, 500, 501))]
        case 1:
            byte = draws.choice((0, 31, 32, 33, 126, 127, 255, draws.randrange(32, 127)))
            one.data = one.data[:at] + bytes([byte]) + one.data[at + 1 :]
        case 2:
            one.length = draws.choice((length + 1, length - 1, 0, 299, 300, 500, 501, 2**16 - 1))
        case 3:
            one.data = one.data[at:] + one.data[:at]


def filled(draws, log):
    """An entry with as many writes as one may have, or one more, of lines of orders."""
    if not (entries := log.entries()):
        return
    one = draws.choice(entries)
    tables = tables_of(log)
    line, count = tables.get(7), draws.choice((200, 201))
    records = sum(write.table != replay.HISTORY for write in one.writes)
    taken = {(write.table, write.place) for write in one.writes}
    places = [place for place in range(min(line.places, 2 * count)) if (7, place) not in taken]
    one.writes += [Write(7, place, 1, [1, 1, 0, 1, 100]) for place in places[: max(count - records, 0)]]
    one.writes.sort(key=lambda write: (write.table, write.place))
