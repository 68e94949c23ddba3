"""Log files, made by hand or by runs of terminals."""

import re
import struct
import tempfile
from collections import namedtuple
from contextlib import nullcontext
from pathlib import Path

import kills
from checks import REPORT, SMALL, brief, run

# The version of the format in which files are written, and the one before, in which stands nothing of C_DATA.
VERSION, FIRST_VERSION = 2, 1

# The last epoch that there is.
LATEST_EPOCH = 2**32 - 1

# ---- Made by hand


def data_of(customer, cents):
    """The text that a customer of district 1 has once they have paid so many cents there, for the first time."""
    return f"{customer} 1 1 1 1 {cents // 100}.{cents % 100:02}|".encode() + b"x" * 300


def payment(number, epoch, terminal, customer, cents, date, before=0, version=VERSION):
    """The entry of a commit: a customer of district 1 pays so many cents there for the first time in this run, and
    others have paid so many before."""
    paid = before + cents
    writes = [
        struct.pack("<BIBq", 1, 0, 1, 20_000 + paid),
        struct.pack("<BIBqQ", 2, 0, 1, 10_000 + paid, 11),
        struct.pack("<BIBqqQQ", 3, customer - 1, 1, -1_000 - cents, 1_000 + cents, 2, 0),
        struct.pack("<BIB7Q", 4, 0, 1, customer, 1, 1, 1, 1, date, cents),
    ]
    # Every tenth customer has bad credit.
    if customer % 10 == 0 and version != FIRST_VERSION:
        writes.append(data_write(customer - 1, data_of(customer, cents)))
    return struct.pack("<QQHH", number, epoch << 32, terminal, len(writes)) + b"".join(writes)


def data_write(place, text, kind=1, length=None):
    """A write that leaves a text in a place of C_DATA, whose length is the text's unless another one is claimed."""
    return struct.pack("<BIBH", 12, place, kind, len(text) if length is None else length) + text


def with_more(entry, *writes):
    """An entry with more writes behind its own."""
    (count,) = struct.unpack_from("<H", entry, 18)
    return entry[:18] + struct.pack("<H", count + len(writes)) + entry[20:] + b"".join(writes)


def entry(number, epoch, terminal):
    """The entry of a commit: customer `number` of district 1 pays 1.00 there, after the customers before."""
    return payment(number, epoch, terminal, number, 100, number, 100 * (number - 1))


def body(mark, *entries):
    """A body, but for the gate that follows it, which its length counts."""
    text = struct.pack("<Q", mark) + b"".join(entries)
    return struct.pack("<Q", len(text) + 1) + text


def void(low, high, length=25):
    """A body that declares epochs void, from one to another, but for the gate that follows it."""
    return struct.pack("<4Q", length, 2**64 - 1, low, high)


def log(logger, loggers, *bodies, version=VERSION):
    """A log file at the scale of SMALL, over the plain population: its header, then each body behind an open gate."""
    header = struct.pack("<8sIHH6IQ", b"SILOTPCC", version, logger, loggers, 1, 2, 10, 20, 30, 1000, 0)
    return header + b"".join(b"\1" + text for text in bodies) + b"\0"


LATER = log(1, 2, body(7, entry(2, 5, 1), entry(3, 6, 1), entry(4, 7, 1), entry(5, 8, 1)))

LOGS = [log(0, 2, body(5, entry(1, 4, 0))), LATER]

# Eight files, each with one of eight commits.
EIGHT = [log(n, 8, body(9, entry(n + 1, n + 1, n))) for n in range(8)]


def put_files(folder, files):
    """Puts log files into a folder, each as that of the logger of its place."""
    for logger, text in enumerate(files):
        (Path(folder) / f"log-{logger}").write_bytes(text)


def on_logs(subcommand, files, loggers=None, scale=SMALL[1:], within=nullcontext, **how):
    """Runs a subcommand on a folder of these log files, within what `within` makes of the folder. The folder is called
    DIR in what the errors got."""
    with tempfile.TemporaryDirectory() as folder:
        put_files(folder, files)
        with within(Path(folder)):
            ran = run([subcommand, *scale, "--logs", folder, "--loggers", str(loggers or len(files))], **how)
        return ran._replace(err=ran.err.replace(folder.encode(), b"DIR"))


# ---- Made by runs

Counts = namedtuple("Counts", "commits rollbacks gaveup refused durable acknowledged")

COUNTED = re.compile(b"".join(b"%s (0|[1-9][0-9]*)\n" % name.encode() for name in Counts._fields) + REPORT)

SCALE = "--warehouses 1 --districts 2 --customers 10 --items 20 --orders 2000 --commits 2000".split()

TWO = "--terminals 2 --loggers 2".split()

# Such a run of a million inputs a terminal takes half a minute.
LONG = "--warehouses 2 --districts 10 --customers 100 --items 1000 --orders 3000 --commits 600000".split()


def run_in(folder, *words, **how):
    """Runs terminals whose log files stand in this folder. It is called DIR in what the errors got."""
    ran = run(["run", "--logs", folder, *words], **how)
    return ran._replace(err=ran.err.replace(folder.encode(), b"DIR"))


def counts_of(output):
    """The counts that a run wrote, in front of a report in which every condition holds."""
    match = COUNTED.fullmatch(output)
    if not match:
        raise kills.Failed(f"a run wrote {brief(output)}")
    return Counts(*map(int, match.groups()))


def inputs_of(counts):
    return counts.commits + counts.rollbacks + counts.gaveup + counts.refused


def contents_of(folder):
    return {path.name: path.read_bytes() for path in Path(folder).iterdir()}
