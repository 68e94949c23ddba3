"""The bytes of a log file (docs/LOG.md) taken apart, to be changed and put together again with lengths that fit."""

import struct
from dataclasses import dataclass, field

import replay

HEADER_BYTES = replay.HEADER.size

MAGIC = b"SILOTPCC"

# The version that has nothing of C_DATA, and the one that is written today.
OLD, TODAY = replay.VERSIONS


@dataclass
class Write:
    """A write: its table, place and kind, and its columns as numbers of 64 bits; of C_DATA the text in their place, and
    that text's length where it isn't the one that fits."""

    table: int
    place: int
    kind: int
    columns: list
    data: bytes = None
    length: int = None

    def text(self):
        front = replay.WRITE.pack(self.table % 2**8, self.place % 2**32, self.kind % 2**8)
        if self.data is None:
            return front + b"".join(word(column) for column in self.columns)
        return front + replay.SHORT.pack((len(self.data) if self.length is None else self.length) % 2**16) + self.data


@dataclass
class Entry:
    number: int
    tid: int
    terminal: int
    writes: list

    def text(self):
        front = word(self.number) + word(self.tid) + struct.pack("<HH", self.terminal % 2**16, len(self.writes) % 2**16)
        return front + b"".join(write.text() for write in self.writes)


@dataclass
class Body:
    """A body with its mark and entries; a void one has the two epochs of its range in their place. Its length and its
    gate are these where they are given, and else those that fit."""

    mark: int
    entries: list
    void: tuple = ()
    longer: int = 0
    gate: int = replay.OPEN

    def text(self):
        behind = b"".join(word(epoch) for epoch in self.void) or b"".join(entry.text() for entry in self.entries)
        text = word(self.mark) + behind
        return bytes([self.gate]) + word(len(text) + 1 + self.longer) + text


@dataclass
class Log:
    """A log file: the numbers of its header behind the magic, its bodies, and what stands behind the last one."""

    numbers: list
    bodies: list
    behind: bytes = b"\0"
    magic: bytes = field(default=MAGIC)

    def text(self):
        version, logger, loggers, *scale, seed = self.numbers
        shorts = struct.pack("<HH", logger % 2**16, loggers % 2**16)
        words = struct.pack("<6I", *(number % 2**32 for number in scale))
        header = self.magic + struct.pack("<I", version % 2**32) + shorts + words + word(seed)
        return header + b"".join(body.text() for body in self.bodies) + self.behind

    def entries(self):
        return [entry for body in self.bodies for entry in body.entries]


def word(number):
    return struct.pack("<Q", number % 2**64)


def void_of(low, high):
    return Body(replay.VOID_MARK, [], (low, high))


class Taken:
    """Takes a log file apart that is one, from its front."""

    def __init__(self, text):
        self.text, self.at = text, 0

    def take(self, form):
        self.at += form.size
        return form.unpack_from(self.text, self.at - form.size)

    def log(self):
        magic, *numbers = self.take(replay.HEADER)
        self.tables = replay.tables_of(replay.Scale(*numbers[3:9]), numbers[0])
        bodies = []
        while self.text[self.at] == replay.OPEN:
            bodies.append(self.body())
        return Log(numbers, bodies, self.text[self.at :], magic)

    def body(self):
        self.at += 1
        length, mark = self.take(replay.RANGE)
        end = self.at + length - 9
        if mark == replay.VOID_MARK:
            return void_of(*self.take(replay.RANGE))
        entries = []
        while self.at < end:
            entries.append(self.entry())
        return Body(mark, entries)

    def entry(self):
        number, tid, terminal, count = self.take(replay.ENTRY)
        return Entry(number, tid, terminal, [self.write() for _ in range(count)])

    def write(self):
        table, place, kind = self.take(replay.WRITE)
        if kind == replay.ABSENT:
            return Write(table, place, kind, [])
        if table == replay.DATA:
            return Write(table, place, kind, [], self.data())
        return Write(table, place, kind, [self.take(replay.LENGTH)[0] for _ in self.tables[table].ranges])

    def data(self):
        (length,) = self.take(replay.SHORT)
        self.at += length
        return self.text[self.at - length : self.at]


def log_of(text):
    """A log file, taken apart."""
    return Taken(text).log()


def in_version(text, version):
    """A log file in this version: in the old one without what stands of C_DATA."""
    log = log_of(text)
    log.numbers[0] = version
    if version == OLD:
        for entry in log.entries():
            entry.writes = [write for write in entry.writes if write.table != replay.DATA]
    return log.text()


def in_the_other_version(text):
    return in_version(text, OLD if log_of(text).numbers[0] == TODAY else TODAY)
