"""Tests of the built program on lines and files that nobody honest has made, and on how much memory they take."""

import resource
import struct
from contextlib import contextmanager

from checks import SMALL, ends, run, same, shows, whole
from logs import body, log, on_logs, payment

# A line of more than 15 lines of an order is in the form, up to 1,024 bytes.
LONGEST = b"neworder 1 1 3" + b" 1:1:1" * 166 + b" 10:1:1" * 2
LINES = [
    (LONGEST, 2),
    (LONGEST + b"0", 14),
    (b"payment 1 1 1 1 3  1.00", 14),
    (b"payment 01 1 1 1 3 1.00", 14),
    (b"payment 4294967296 1 1 1 3 1.00", 14),
    (b"payment 4294967295 1 1 1 3 1.00", 2),
    (b"payment 1 1 1 1 3 -0.00", 14),
    (b"payment 1 1 1 1 3 -1.00", 2),
    (b"payment 1 1 1 1 3 100000000000.01", 2),
    (b"payment 1 1 1 1 3 1.00\x80", 14),
    (b"pay\xc3\xa4ment 1 1 1 1 3 1.00", 14),
    (b"payment 1 1 1\0 1 3 1.00", 14),
    (b"\0payment 1 1 1 1 3 1.00", 14),
]


@shows
def hostile_lines_are_refused():
    same("the length of the longest line", len(LONGEST), 1024)
    answers = b"".join(b"%d line %d\n" % (refusal, number) for number, (_, refusal) in enumerate(LINES, 1))
    ends("of hostile lines", run(SMALL, b"\n".join(line for line, _ in LINES)), 0, whole(answers, 0))
    # The same before one that is good, which is answered all the same.
    good = b"payment 1 1 1 1 3 1.00"
    for line, refusal in LINES:
        answers = b"%d line 1\npayment 1 1 customer 1 1 3 balance -11.00\n" % refusal
        ends(f"of {line[:40]!r} and a good line", run(SMALL, line + b"\n" + good), 0, whole(answers, 1))


# ---- A file that no history has made

# Customer 3 pays 12.34 in epoch 1: a file of 222 bytes, whose W_YTD of 212.34 begins with the byte F2.
PAYMENT = payment(1, 1, 0, customer=3, cents=1234, date=1)
HONEST = log(0, 1, body(1, PAYMENT))
FORGED = HONEST.replace(struct.pack("<q", 21_234), struct.pack("<q", 21_235))

BROKEN = b"commits 1\nC1 broken 1\nC2 ok\nC3 ok\nC4 ok\nC5 ok\nC6 ok\nC7 ok\nC8 broken 1\nC9 ok\nC10 ok\nC12 ok\n"


@shows
def a_file_in_the_grammar_that_no_history_made_is_recovered_and_checked():
    same("the length of the file", len(HONEST), 222)
    changed = [(at, byte) for at, byte in enumerate(FORGED) if byte != HONEST[at]]
    same("what is changed in it", [byte for _, byte in changed], [0xF3])
    ends("of check of the honest file", on_logs("check", [HONEST]), 0, whole(b"", 1))
    ends("of check of the other", on_logs("check", [FORGED]), 1, BROKEN)
    shown = b"durable 1\ncommits 1\nwarehouse 1 ytd 212.35\ndistrict 1 1 ytd 112.34 next 11\n"
    # Its status too says that a condition is broken.
    ends("of recover of the other", on_logs("recover", [FORGED]), 1, shown + b"district 1 2 ytd 100.00 next 11\n")


# ---- Memory

# What the program's own start, the population and the log files may take.
LIMIT = 32 * 1024 * 1024

# The length of a file that takes few blocks.
HUGE = 2**40


def in_little_memory():
    resource.setrlimit(resource.RLIMIT_AS, (LIMIT, LIMIT))


def claiming(length, size):
    """A file of so many bytes whose first body claims to have this length."""
    return (log(0, 1)[:48] + b"\1" + struct.pack("<Q", length)).ljust(size, b"\0")


@contextmanager
def with_a_hole(folder):
    """Makes the first file a long one, without writing what is in it."""
    with open(folder / "log-0", "r+b") as file:
        file.truncate(HUGE)
    yield


def claim_told(length, size):
    """What is told of a file of so many bytes, the first body of which claims this length."""
    end = 57 + length
    if end <= size:
        return b"the body at byte 49 isn't one that may stand there"
    behind = b", which would end at byte %d" % end if end < 2**64 else b""
    return b"it ends at byte %d, inside the body at byte 49%s" % (size, behind)


@shows
def a_length_that_is_claimed_takes_no_memory():
    for subcommand in ("recover", "check"):
        for length in (8, 2**31, 2**40, 2**63 - 1, 2**63, 2**64 - 9, 2**64 - 1):
            for size in (57, 100):
                ran = on_logs(subcommand, [claiming(length, size)], before=in_little_memory)
                err = b"10 Damaged\nDIR/log-0: %s\n" % claim_told(length, size)
                ends(f"of {subcommand} of {size} bytes that claim {length}", ran, 1, err=err)
        ran = on_logs(subcommand, [HONEST], before=in_little_memory)
        same(f"the status of {subcommand} of a good file in little memory", ran.status, 0)


# Of the options of SMALL.
HELD = b"1 OutOfMemory\nsome 3 MB for these options, and more for what the log files hold\n"


@shows
def a_body_that_is_larger_than_memory_is_refused():
    for subcommand in ("recover", "check"):
        ran = on_logs(subcommand, [claiming(2**39, 57)], within=with_a_hole, before=in_little_memory)
        ends(f"of {subcommand} of a body of 2^39 bytes", ran, 1, err=HELD)
