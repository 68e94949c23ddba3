"""Tests of the built program on what its words ask for beside the tables: its version, what log files say of
themselves, and what is told of a script's refused lines."""

import fcntl
import os
import tempfile
from pathlib import Path

from checks import SMALL, ends, run, same, shows
from logs import FIRST_VERSION, LOGS, log, put_files

VERSION_LINE = b"tpcc 0.1.0 (for rattle-kit-13f; proved where rt ci or rt run built it)\n"

NO_SPACE = b"standard output: No space left on device (os error 28)\n"


def run_full(words):
    """Runs the program with an output that takes no bytes."""
    with open("/dev/full", "wb") as full:
        return run(words, stdout=full)


@shows
def the_version_goes_to_the_output():
    for word in ("--version", "-V"):
        ends(f"of {word}", run([word]), 0, VERSION_LINE)
        ends(f"of {word} without errors", run([word], before=lambda: os.close(2)), 0, VERSION_LINE)
        ends(f"of {word} on a full device", run_full([word]), 1, err=b"9 Device\n" + NO_SPACE)
        ends(f"of {word} of script", run(["script", word]), 2, err=b"error: unexpected argument '%s' found\n\n"
             b"Usage: tpcc script [OPTIONS]\n\nFor more information, try '--help'.\n" % word.encode())


# ---- What log files say of themselves

OF_SMALL = b"--warehouses 1 --districts 2 --customers 10 --items 20 --orders 30 --commits 1000 --population 0\n"


def informed(files, change=None):
    """Runs `info` on a folder of these log files, which `change` changes. The folder is called DIR in what the errors
    got."""
    with tempfile.TemporaryDirectory() as folder:
        put_files(folder, files)
        if change:
            change(Path(folder))
        ran = run(["info", "--logs", folder])
        return ran._replace(err=ran.err.replace(folder.encode(), b"DIR"))


@shows
def info_tells_what_log_files_were_made_with():
    told = b"version 2\nloggers 2\n--loggers 2 " + OF_SMALL
    ends("of two files", informed(LOGS), 0, told)
    ends("of the first of two", informed(LOGS[:1]), 0, told)
    ends("of a second that is none", informed([LOGS[0], b""]), 0, told)
    ends("of a header alone", informed([LOGS[0][:48]]), 0, told)
    old = b"version 1\nloggers 8\n--loggers 8 " + OF_SMALL
    ends("of version 1", informed([log(0, 8, version=FIRST_VERSION)]), 0, old)
    ends("of a file that can't be written", informed(LOGS, lambda it: (it / "log-0").chmod(0o444)), 0, told)
    # Whichever logger's file it is, it says the same of all.
    ends("of the other order", informed(LOGS[::-1]), 0, told)


@shows
def what_info_tells_can_be_pasted():
    with tempfile.TemporaryDirectory() as folder:
        made = "--warehouses 2 --districts 3 --customers 40 --items 50 --orders 60 --commits 70 --population 8".split()
        ran = run(["run", "--logs", folder, "--loggers", "3", "--count", "2", *made])
        same("the status of a run", ran.status, 0)
        told = run(["info", "--logs", folder])
        ends("of its files", told, 0, b"version 2\nloggers 3\n" + " ".join(["--loggers 3", *made]).encode() + b"\n")
        again = run(["check", "--logs", folder, *told.out.decode().splitlines()[-1].split()])
        same("the status of a check with them", again.status, 0)


@shows
def info_needs_no_lock():
    with tempfile.TemporaryDirectory() as folder:
        put_files(folder, LOGS)
        with open(Path(folder) / "log-0", "r+b") as held:
            fcntl.flock(held, fcntl.LOCK_EX)
            same("the status beside a lock", run(["info", "--logs", folder]).status, 0)
            same("the status of a recovery", run(["recover", *SMALL[1:], "--logs", folder, "--loggers", "2"]).status, 1)


@shows
def info_is_refused_where_there_is_no_header():
    headless = b"10 Damaged\nDIR/log-0: bytes 0 to 47 are no header of a log file\n"
    ends("of no bytes", informed([b""]), 1, err=b"10 Damaged\nDIR/log-0: it is empty\n")
    for length in (1, 47):
        short = b"10 Damaged\nDIR/log-0: it has %d bytes, and a header has 48\n" % length
        ends(f"of {length} bytes", informed([LOGS[0][:length]]), 1, err=short)
    ends("of another format", informed([b"T" + LOGS[0][1:]]), 1, err=headless)
    unknown = b"10 Damaged\nDIR/log-0: it is of version 3, which this program doesn't know\n"
    ends("of version 3", informed([log(0, 2, version=3)]), 1, err=unknown)
    ends("of no loggers", informed([log(0, 0)]), 1, err=headless)
    missing = b"9 Device\nDIR/log-0: can't be opened: No such file or directory (os error 2)\n"
    ends("of no file", informed([]), 1, err=missing)
    ends("of no folder", informed([], lambda it: it.rmdir() or it.mkdir()), 1, err=missing)
    folder = b"9 Device\nDIR/log-0: can't be read: Is a directory (os error 21)\n"
    ends("of a folder", informed([], lambda it: (it / "log-0").mkdir()), 1, err=folder)
    same("the errors of no option", run(["info"]).err.splitlines()[0],
         b"error: the following required arguments were not provided:")
    with tempfile.TemporaryDirectory() as folder:
        put_files(folder, LOGS)
        ends("on a full device", run_full(["info", "--logs", folder]), 1, err=b"9 Device\n" + NO_SPACE)


# ---- What is told of refused lines

VERBS = "there are payment, neworder, delivery, status, level and show"
TABLES = "there are warehouse, district, customer, data, stock and order"
FIVE = "1:1:1 2:1:1 3:1:1 4:1:1 5:1:1"

# Lines, each with what is told of it: None of one that isn't refused.
EXPLAINED = [
    ("show warehouse 1", None),
    ("show warehouse 1\r", "it ends in a carriage return"),
    ("show\twarehouse 1", "it has a tab: words are parted by one space each"),
    ("show warehouse \xe9", "it has a byte that is no printable character of ASCII"),
    ("", "it is empty"),
    (" show warehouse 1", "it begins with a space"),
    ("show warehouse 1 ", "it ends in a space"),
    ("show  warehouse 1", "it has two spaces in a row"),
    ("x" * 1025, "it is longer than 1024 bytes"),
    ("pay 1 1 1 1 3 12.34", f"`pay` is no verb: {VERBS}"),
    ("Payment", f"`Payment` is no verb: {VERBS}"),
    ("show", "`show` of what? There are warehouse, district, customer, data, stock and order"),
    ("show item 1", f"`item` can't be shown: {TABLES}"),
    ("show warehouse", "show warehouse has 1 word behind it, and here are 0"),
    ("show stock 1", "show stock has 2 words behind it, and here is 1"),
    ("payment 1 1 1 1 12.34", "payment has 6 words behind it, and here are 5"),
    ("status 1 1 1 1", "status has 3 words behind it, and here are 4"),
    ("level", "level has 3 words behind it, and here are 0"),
    ("payment 01 1 1 1 3 12.34", "W is `01`: a number has no zero in front"),
    ("payment 1 x 1 1 3 12.34", "D is `x`: it is to be a number"),
    ("payment 1 1 1 -1 3 12.34", "CD is `-1`: it is to be a number"),
    ("delivery 1 4294967296", "CARRIER is `4294967296`: a number is up to 4294967295"),
    ("payment 1 1 1 1 barbarbar 12.34", "WHO is `barbarbar`: it is to be a number, or a last name in capitals, as BARBARESE"),
    ("payment 1 1 1 1 3 12", "AMOUNT is `12`: it is to have two digits behind a point"),
    ("payment 1 1 1 1 3 1.0", "AMOUNT is `1.0`: it is to have two digits behind a point"),
    ("payment 1 1 1 1 3 1.000", "AMOUNT is `1.000`: it is to have two digits behind a point"),
    ("payment 1 1 1 1 3 01.00", "AMOUNT is `01.00`: it is to have no zero in front"),
    ("payment 1 1 1 1 3 .50", "AMOUNT is `.50`: it is to be digits in front of the point"),
    ("payment 1 1 1 1 3 -0.00", "AMOUNT is `-0.00`: an amount of nothing has no sign"),
    ("neworder 1 1", "neworder has W, D, C and 5 to 15 lines behind it, and here are 2 words"),
    ("neworder 1 1 1 1:1", "`1:1` is to be ITEM:SUPPLY:QUANTITY"),
    ("neworder 1 1 1 1:01:1", "`01` in `1:01:1`: a number has no zero in front"),
    ("neworder 1 1 1 1:1:", "`` in `1:1:`: it is to be a number"),
    # In a form, with a number outside its range.
    ("payment 2 1 1 1 3 12.34", "W is 2: it is to be from 1 to 1"),
    ("payment 1 3 1 1 3 12.34", "D is 3: it is to be from 1 to 2"),
    ("payment 1 1 0 1 3 12.34", "CW is 0: it is to be from 1 to 1"),
    ("payment 1 1 1 1 11 12.34", "WHO is 11: it is to be from 1 to 10"),
    ("payment 1 1 1 1 BAROUGHTBAR 12.34", "WHO is BAROUGHTBAR, the last name of number 10: there are those of 0 to 9"),
    ("payment 1 1 1 1 BARBAREING 12.34", None),
    ("payment 1 1 1 1 3 0.99", "AMOUNT is 0.99: it is to be from 1.00 to 5000.00"),
    ("payment 1 1 1 1 3 -12.34", "AMOUNT is -12.34: it is to be from 1.00 to 5000.00"),
    ("payment 1 1 1 1 3 99999999999999999999.00", "AMOUNT is 99999999999999999999.00: it is to be from 1.00 to 5000.00"),
    ("neworder 1 1 1 1:1:1 2:1:1 3:1:1 4:1:1", "it has 4 lines: an order is to have from 5 to 15"),
    ("neworder 1 1 1", "it has 0 lines: an order is to have from 5 to 15"),
    (f"neworder 1 1 1 {FIVE} {FIVE} {FIVE} 1:1:1", "it has 16 lines: an order is to have from 5 to 15"),
    (f"neworder 1 1 1 {FIVE} 6:2:1", "SUPPLY is 2 in `6:2:1`: it is to be from 1 to 1"),
    (f"neworder 1 1 1 {FIVE} 6:1:11", "QUANTITY is 11 in `6:1:11`: it is to be from 1 to 10"),
    (f"neworder 1 1 1 {FIVE} 100002:1:1", "ITEM is 100002 in `100002:1:1`: it is to be from 1 to 100001"),
    (f"neworder 1 1 11 {FIVE}", "C is 11: it is to be from 1 to 10"),
    ("delivery 1 11", "CARRIER is 11: it is to be from 1 to 10"),
    ("level 1 1 21", "THRESHOLD is 21: it is to be from 10 to 20"),
    ("status 1 1 EINGEINGEING", "WHO is EINGEINGEING, the last name of number 999: there are those of 0 to 9"),
    ("show stock 1 21", "I is 21: it is to be from 1 to 20"),
    ("show order 1 1 31", "O is 31: it is to be from 1 to 30"),
    ("show data 1 1 0", "C is 0: it is to be from 1 to 10"),
    # Refused by the tables.
    (f"neworder 1 1 1 {FIVE} 21:1:1", "item 21: ITEM has 1 to 20"),
]


def told_of(lines):
    """What is told of lines with these hints."""
    return "".join(f"line {number}: {hint}\n" for number, (_, hint) in enumerate(lines, 1) if hint).encode()


def explains(what, lines, scale=SMALL):
    """Checks: that a script's output is the same where its refused lines are explained, and what is told of them."""
    script = "".join(line + "\n" for line, _ in lines).encode("latin-1")
    plain, explained = run(scale, script), run([*scale, "--explain"], script)
    same(f"the errors {what}", plain.err, b"")
    ends(f"{what} that is explained", explained, plain.status, plain.out, told_of(lines))
    refused = [number for number, line in enumerate(plain.out.splitlines(), 1) if line[:1].isdigit()]
    same(f"the refused lines {what}", refused, [number for number, (_, hint) in enumerate(lines, 1) if hint])


@shows
def refused_lines_are_explained():
    explains("of a script", EXPLAINED)
    explains("of no lines", [])
    explains("of good lines", [("show warehouse 1", None)])
    orders = [(f"neworder 1 2 1 {FIVE}", None)] * 20
    explains("of a full district", [*orders, (
        f"neworder 1 2 1 {FIVE}", "district 1 2 has no order number left: they go up to --orders 30",
    )])
    few = [*SMALL[:-1], "1"]
    explains("at the commit cap", [("payment 1 1 1 1 3 12.34", None), (
        "payment 1 1 1 1 3 12.34", "the commits are at the commit cap, --commits 1",
    )], few)


@shows
def an_explanation_that_can_not_be_written_changes_nothing():
    script = "".join(line + "\n" for line, _ in EXPLAINED).encode("latin-1")
    plain = run(SMALL, script)
    ends("without errors", run([*SMALL, "--explain"], script, before=lambda: os.close(2)), plain.status, plain.out)


@shows
def a_script_s_file_is_no_word():
    ran = run(["script", "payments.txt"])
    ends("of a file", ran, 2, err=b"error: unexpected argument 'payments.txt' found\n\nUsage: tpcc script [OPTIONS]\n\n"
         b"For more information, try '--help'.\n\n  tip: a script comes from standard input: tpcc script [OPTIONS] < FILE\n")
