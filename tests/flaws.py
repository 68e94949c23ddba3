"""Tests of the built program on log files that aren't those that it asks for: what is told of them."""

from checks import SMALL, ends, shows
from logs import (
    FIRST_VERSION, LATER, LOGS, VERSION, body, data_of, data_write, entry, log, on_logs, payment, void, with_more,
)

# The same scale with other numbers, and what is then told of the first file.
OTHER_NUMBERS = [
    ("--warehouses 2", "--warehouses 2, but DIR/log-0 is of 1"),
    ("--districts 1", "--districts 1, but DIR/log-0 is of 2"),
    ("--customers 11", "--customers 11, but DIR/log-0 is of 10"),
    ("--items 21", "--items 21, but DIR/log-0 is of 20"),
    ("--orders 31", "--orders 31, but DIR/log-0 is of 30"),
    ("--commits 1", "--commits 1, but DIR/log-0 is of 1000"),
    ("--population 7", "--population 7, but DIR/log-0 is of 0"),
    # Of several, the first that stands in a header.
    ("--population 7 --items 21", "--items 21, but DIR/log-0 is of 20"),
]


def with_options(words, others):
    """Words of options, each with a number behind it, with others in place of those of the same names or beside them."""
    options = dict(zip(words[::2], words[1::2])) | dict(zip(others[::2], others[1::2]))
    return [word for option in options.items() for word in option]


def with_bytes(text, at, others):
    """A text with other bytes from a place on."""
    return text[:at] + others + text[at + len(others) :]


FIRST = LOGS[0]

# A body without entries takes 16 bytes, and its gate another.
TWO_BODIES = log(0, 1, body(5), body(6))

# Each of two files in each version.
OLD_FILES, NEW_FILES = [
    [log(logger, 2, body(5), version=version) for logger in (0, 1)] for version in (FIRST_VERSION, VERSION)
]

DAMAGED = [
    ("no bytes", [b""], "DIR/log-0: it is empty"),
    ("one byte", [b"S"], "DIR/log-0: it has 1 bytes, and a header has 48"),
    ("47 bytes", [log(0, 1)[:47]], "log-0: it has 47 bytes, and a header has 48"),
    ("another format", [with_bytes(TWO_BODIES, 0, b"T")], "log-0: bytes 0 to 47 are no header of a log file"),
    ("version 0", [with_bytes(TWO_BODIES, 8, b"\0")], "log-0: bytes 0 to 47 are no header of a log file"),
    ("version 3", [with_bytes(TWO_BODIES, 8, b"\3")], "log-0: it is of version 3, which this program doesn't know"),
    ("version 3 of another format", [with_bytes(TWO_BODIES, 7, b"D\3")], "log-0: bytes 0 to 47 are no header of a log file"),
    ("a short version 3", [with_bytes(TWO_BODIES, 8, b"\3")[:12]], "log-0: it is of version 3, which this program doesn't know"),
    ("a shorter version 3", [with_bytes(TWO_BODIES, 8, b"\3")[:11]], "log-0: it has 11 bytes, and a header has 48"),
    ("version 258", [with_bytes(TWO_BODIES, 9, b"\1")], "log-0: it is of version 258, which this program doesn't know"),
    ("version 1, then 2", [OLD_FILES[0], NEW_FILES[1]], "log-1: it is of version 2, and log-0 is of 1"),
    ("version 2, then 1", [NEW_FILES[0], OLD_FILES[1]], "log-1: it is of version 1, and log-0 is of 2"),
    ("version 2, then 3", [NEW_FILES[0], with_bytes(NEW_FILES[1], 8, b"\3")], "log-1: it is of version 3, which this program doesn't know"),
    # The version is the first field in which a header may differ.
    ("version 2, then 1 of 0", [NEW_FILES[0], OLD_FILES[0]], "log-1: it is of version 1, and log-0 is of 2"),
    ("version 1 of logger 1", [OLD_FILES[1], NEW_FILES[1]], "DIR/log-0 is the file of logger 1"),
    ("no header, then version 1", [b"", OLD_FILES[1]], "DIR/log-0: it is empty"),
    ("no warehouse", [with_bytes(TWO_BODIES, 16, b"\0")], "log-0: bytes 0 to 47 are no header of a log file"),
    ("no gate", [log(0, 1)[:48]], "log-0: it ends at byte 48, where a gate is to stand"),
    ("no last gate", [TWO_BODIES[:-1]], "log-0: it ends at byte 82, where a gate is to stand"),
    ("an open gate and nothing behind", [log(0, 1)[:48] + b"\1"], "log-0: it ends at byte 49, inside the body at byte 49"),
    ("seven bytes of a length", [TWO_BODIES[:73]], "log-0: it ends at byte 73, inside the body at byte 66"),
    ("a length and nothing behind", [TWO_BODIES[:74]], "log-0: it ends at byte 74, inside the body at byte 66, which would end at byte 83"),
    ("half a body", [TWO_BODIES[:75]], "log-0: it ends at byte 75, inside the body at byte 66, which would end at byte 83"),
    ("a body but for a byte", [TWO_BODIES[:81]], "log-0: it ends at byte 81, inside the body at byte 66, which would end at byte 83"),
    ("an unlawful body without its gate", [log(0, 1, body(5), body(4))[:82]], "log-0: it ends at byte 82, inside the body at byte 66, which would end at byte 83"),
    ("a length without end", [with_bytes(TWO_BODIES, 66, b"\xff" * 8)], "log-0: it ends at byte 83, inside the body at byte 66"),
    ("a length of 0", [with_bytes(TWO_BODIES, 66, bytes(8))], "log-0: the body at byte 66 isn't one that may stand there"),
    ("a mark that falls", [log(0, 1, body(5), body(4))], "log-0: the body at byte 66 isn't one that may stand there"),
    ("the other order", LOGS[::-1], "DIR/log-0 is the file of logger 1"),
    ("a file twice", [FIRST, FIRST], "DIR/log-1 is the file of logger 0"),
    ("a file of more loggers", [FIRST, log(1, 3)], "--loggers 2, but DIR/log-1 is of 3"),
    (
        "another logger's terminal",
        [log(0, 2, body(5, entry(1, 4, 1))), LATER],
        "log-0: the body at byte 49 isn't one that may stand there",
    ),
    (
        "a damaged second file",
        [FIRST, log(1, 2, body(5), body(5, entry(2, 4, 1)), body(7))],
        "log-1: the body at byte 66 isn't one that may stand there",
    ),
    # A file's header is told before its bodies are.
    ("another header and no body", [log(1, 2)[:48], LATER], "DIR/log-0 is the file of logger 1"),
]


# Void bodies behind mark 5 and an entry of epoch 6, and what is told of each.
VOIDS = [
    ("from 0", void(0, 8), "it begins at epoch 0"),
    ("from behind its end", void(8, 7), "it begins behind its end"),
    ("to what is no mark", void(6, 2**32 - 1), "it ends behind epoch 4294967294"),
    ("to before a mark", void(4, 4), "it ends before a mark or an epoch in front of it"),
    ("to before an epoch", void(5, 5), "it ends before a mark or an epoch in front of it"),
    ("of another length", void(6, 8, 24), "its length isn't 25"),
]

# Writes that a Payment of customer 10 may not leave in C_DATA: of other texts, or of another length than is claimed.
TEXT = data_of(10, 100)

WRITES = [
    ("a text of 299 bytes", [data_write(9, b"x" * 299)]),
    ("a text of 501 bytes", [data_write(9, b"x" * 501)]),
    ("a text with byte 31", [data_write(9, TEXT[:-1] + b"\x1f")]),
    ("a text with byte 127", [data_write(9, b"\x7f" + TEXT[1:])]),
    ("a text with byte 255", [data_write(9, TEXT[:200] + b"\xff" + TEXT[201:])]),
    ("no text", [data_write(9, b"")]),
    ("a text that is claimed to be longer", [data_write(9, TEXT, length=len(TEXT) + 1)]),
    ("a text that is claimed to be shorter", [data_write(9, TEXT, length=len(TEXT) - 1)]),
    ("a text that is claimed to have 65,535 bytes", [data_write(9, TEXT, length=65_535)]),
    ("a text of kind 0", [data_write(9, TEXT, kind=0)]),
    ("a text of kind 2", [data_write(9, TEXT, kind=2)]),
    ("an absent text", [b"\x0c" + bytes([9, 0, 0, 0, 0])]),
    ("a text in place 20 of 20", [data_write(20, TEXT)]),
    ("two texts", [data_write(9, TEXT), data_write(9, TEXT)]),
]


def with_writes(writes, version=VERSION):
    """A file in which customer 10 pays 1.00, with these writes in place of that to C_DATA."""
    paid = payment(1, 4, 0, 10, 100, 1, version=FIRST_VERSION)
    return log(0, 1, body(5, with_more(paid, *writes)), version=version)


FLAWED = "log-0: the body at byte 49 isn't one that may stand there"

DAMAGED += [(what, [with_writes(writes)], FLAWED) for what, writes in WRITES]

DAMAGED += [("a text in version 1", [with_writes([data_write(9, TEXT)], FIRST_VERSION)], FLAWED)]

DAMAGED += [
    (
        f"a void body {what}",
        [log(0, 1, body(5, entry(1, 6, 0)), text)],
        f"log-0: the void body at byte 222 isn't one that may stand there: {why}",
    )
    for what, text, why in VOIDS
]


@shows
def the_first_flaw_of_log_files_is_told():
    for subcommand in ("recover", "check"):
        for what, files, text in DAMAGED:
            err = f"10 Damaged\n{text if 'DIR' in text else 'DIR/' + text}\n".encode()
            ends(f"of {subcommand} on {what}", on_logs(subcommand, files), 1, err=err)
        ran = on_logs(subcommand, LOGS, loggers=1)
        err = b"10 Damaged\n--loggers 1, but DIR/log-0 is of 2\n"
        ends(f"of {subcommand} on one of two", ran, 1, err=err)
        for words, text in OTHER_NUMBERS:
            ran = on_logs(subcommand, LOGS, scale=with_options(SMALL[1:], words.split()))
            ends(f"of {subcommand} with {words}", ran, 1, err=f"10 Damaged\n{text}\n".encode())


# Files of two loggers, in which numbers are amiss that count up to epoch 5.
GAPS = [
    ("without commit 1", [log(0, 2, body(5)), LATER], "commit 1 is missing"),
    ("without commit 2", [log(0, 2, body(5, entry(1, 4, 0), entry(3, 5, 0))), log(1, 2, body(5))], "commit 2 is missing"),
    ("with commit 1 twice", [log(0, 2, body(5, entry(1, 4, 0))), log(1, 2, body(5, entry(1, 4, 1)))], "commit 1 stands twice"),
    (
        "with commit 2 twice and without 3",
        [log(0, 2, body(5, entry(1, 4, 0), entry(2, 5, 0))), log(1, 2, body(5, entry(2, 4, 1), entry(4, 5, 1)))],
        "commit 2 stands twice",
    ),
]


@shows
def the_first_gap_of_commits_is_told():
    for subcommand in ("recover", "check"):
        for what, files, text in GAPS:
            ends(f"of {subcommand} {what}", on_logs(subcommand, files), 1, err=f"11 Gap\n{text}\n".encode())
