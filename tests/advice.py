"""Tests of the line that the built program tells behind a refusal's, where it says what to do about it."""

import os
import re
import resource
import struct
import tempfile
from pathlib import Path

from checks import SMALL, ends, run, same, shows, shows_runs, start
from logs import FIRST_VERSION, LATER, LOGS, SCALE, TWO, body, contents_of, entry, log, on_logs, put_files, run_in

# What a run that goes on is given, so that it has nothing to do.
NO_INPUT = ["--terminals", "1", "--count", "0"]

OPTIONS = ["--warehouses 2", "--districts 1", "--customers 11", "--items 21", "--orders 31", "--commits 1", "--population 7"]

# The numbers of SMALL and of the plain population.
OF_FILES = dict(zip(SMALL[1::2], SMALL[2::2])) | {"--population": "0"}


def resumed_on(files, *words, loggers=None, **how):
    """Goes on with these files, at the scale of SMALL but for these words. Gives what came of it and what is left."""
    with tempfile.TemporaryDirectory() as folder:
        put_files(folder, files)
        options = dict(zip(SMALL[1::2], SMALL[2::2])) | dict(zip(words[::2], words[1::2]))
        scale = [word for option in options.items() for word in option]
        ran = run_in(folder, *scale, *NO_INPUT, "--resume", "--loggers", str(loggers or len(files)), **how)
        return ran, [text for _, text in sorted(contents_of(folder).items())]


# ---- Options


@shows_runs
def an_option_that_is_not_that_of_the_files_is_named_with_both_values():
    for words in OPTIONS:
        name, value = words.split()
        ran, left = resumed_on(LOGS, name, value)
        err = f"10 Damaged\n{name} {value}, but DIR/log-0 is of {OF_FILES[name]}\n"
        ends(f"of a run that goes on with {words}", ran, 1, err=err.encode())
        same(f"the files after {words}", left, LOGS)
    ran, _ = resumed_on(LOGS, loggers=1)
    ends("of a run that goes on with one logger of two", ran, 1, err=b"10 Damaged\n--loggers 1, but DIR/log-0 is of 2\n")


@shows
def more_loggers_than_there_are_are_told_by_the_header():
    for subcommand in ("recover", "check"):
        for loggers in (3, 8):
            ran = on_logs(subcommand, LOGS, loggers=loggers)
            err = b"9 Device\n--loggers %d, but DIR/log-0 is of 2\n" % loggers
            ends(f"of {subcommand} with {loggers} loggers", ran, 1, err=err)
        # Where the first file says nothing else, the file that isn't there is told.
        for what, files in (("of as many", [log(0, 3, body(5))]), ("that is short", [b"SILOTPCC"]), ("that is empty", [b""])):
            ran = on_logs(subcommand, files, loggers=3)
            err = b"9 Device\nDIR/log-1: can't be opened: No such file or directory (os error 2)\n"
            ends(f"of {subcommand} with a first file {what}", ran, 1, err=err)
        ran = on_logs(subcommand, [], loggers=2)
        err = b"9 Device\nDIR/log-0: can't be opened: No such file or directory (os error 2)\n"
        ends(f"of {subcommand} without files", ran, 1, err=err)


@shows_runs
def a_run_does_not_go_on_with_more_loggers_than_there_are():
    ran, left = resumed_on(LOGS, loggers=3)
    ends("of a run that goes on with three loggers", ran, 1, err=b"9 Device\n--loggers 3, but DIR/log-0 is of 2\n")
    same("the files then", left, LOGS)


# ---- Versions


@shows_runs
def files_of_an_older_version_are_told_as_such():
    files = [log(logger, 2, body(5), version=FIRST_VERSION) for logger in (0, 1)]
    ran, _ = resumed_on(files)
    err = b"10 Damaged\nDIR/log-0: it is of version 1, which can be recovered and checked, not gone on with\n"
    ends("of a run that goes on from the first version", ran, 1, err=err)
    # What keeps them from being recovered comes first.
    ran, _ = resumed_on([files[0], files[1][:-1]])
    ends("with a gate cut off", ran, 1, err=b"10 Damaged\nDIR/log-1: it ends at byte 65, where a gate is to stand\n")
    ran, _ = resumed_on(files, "--items", "21")
    ends("with other items", ran, 1, err=b"10 Damaged\n--items 21, but DIR/log-0 is of 20\n")
    for subcommand in ("recover", "check"):
        same(f"the status of {subcommand} on them", on_logs(subcommand, files).status, 0)


@shows_runs
def files_of_a_newer_version_are_told_as_such():
    newer = LOGS[0][:8] + struct.pack("<I", 3) + LOGS[0][12:]
    err = b"10 Damaged\nDIR/log-0: it is of version 3, which this program doesn't know\n"
    ends("of a run that goes on from version 3", resumed_on([newer, LATER])[0], 1, err=err)


# ---- Out of reach


def with_balance(cents):
    """A commit in which customer 1 pays 1.00 and is left with this balance."""
    paid = entry(1, 4, 0)
    assert paid.count(struct.pack("<q", -1_100)) == 1
    return log(0, 1, body(5, paid.replace(struct.pack("<q", -1_100), struct.pack("<q", cents))))


@shows_runs
def a_column_that_is_out_of_reach_is_told():
    beyond = b"10 Damaged\n%s is beyond what 1 commits can make\n"
    unsound = b"10 Damaged\nwhat the log files recover to no commits can have made: `tpcc check` tells more\n"
    for what, files, err in unreached():
        ran, left = resumed_on(files)
        ends(f"where {what}", ran, 1, err=beyond % err if err else unsound)
        same(f"the files where {what}", left, files)


def stock_with(year_to_date, orders, remote):
    """A file with a commit that leaves a count of stock 2 of warehouse 1, and nothing else."""
    write = struct.pack("<BIBQQQQ", 9, 1, 1, 50, year_to_date, orders, remote)
    return log(0, 1, body(5, struct.pack("<QQHH", 1, 4 << 32, 0, 1) + write))


def customer_with(payments, deliveries):
    """A file with a commit that leaves counts of customer 3 of district 2, and nothing else."""
    write = struct.pack("<BIBqqQQ", 3, 12, 1, -1_000, 1_000, payments, deliveries)
    return log(0, 1, body(5, struct.pack("<QQHH", 1, 4 << 32, 0, 1) + write))


def with_dear_lines():
    """A file with a commit that leaves four orders of district 1 as customer 1's, each of 15 lines of 9,999.99, all
    delivered."""
    writes = [
        struct.pack("<BIBqqQQ", 3, 0, 1, 60 * 999_999 - 1_000, 1_000, 1, 0),
        *[struct.pack("<BIB5Q", 6, order, 1, 1, 1, 1, 15, 1) for order in range(4)],
        *[struct.pack("<BIB5Q", 7, line, 1, 1, 1, 1, 1, 999_999) for line in range(60)],
        *[struct.pack("<BIBQ", 11, customer, 1, 0 if customer else 4) for customer in range(4)],
    ]
    return log(0, 1, body(5, struct.pack("<QQHH", 1, 4 << 32, 0, len(writes)) + b"".join(writes)))


def unreached():
    """Files whose conditions hold, or don't, and the column that is out of reach of one commit, if it is told."""
    return [
        ("a stock has a year to date of 152", [stock_with(152, 0, 0)], b"S_YTD of stock 1 2"),
        ("a stock has 152 orders", [stock_with(151, 152, 0)], b"S_ORDER_CNT of stock 1 2"),
        ("a stock has 152 remote orders", [stock_with(151, 151, 152)], b"S_REMOTE_CNT of stock 1 2"),
        ("a customer got 599,999.40 of orders", [with_dear_lines()], b"C_BALANCE of customer 1 1 1"),
        ("a customer has 152 payments", [customer_with(152, 152)], b"C_PAYMENT_CNT of customer 1 2 3"),
        ("a customer has 152 deliveries", [customer_with(151, 152)], b"C_DELIVERY_CNT of customer 1 2 3"),
        ("a balance breaks a condition", [with_balance(-45_000_001)], None),
    ]


# ---- Files that are there


@shows_runs
def a_run_that_finds_files_names_the_option_that_goes_on_with_them():
    with tempfile.TemporaryDirectory() as folder:
        same("the status of a first run", run_in(folder, *SCALE, *TWO, "--count", "5").status, 0)
        ran = run_in(folder, *SCALE, *TWO, "--count", "5")
        same("whether --resume is named", b"--resume goes on with it" in ran.err, True)
        same("the status with it", run_in(folder, *SCALE, *TWO, "--count", "5", "--resume").status, 0)


# ---- Memory

KINDS = [
    "",
    "--orders 12000",
    "--customers 3000",
    "--customers 3000 --population 1",
    "--districts 1 --customers 10 --orders 10 --items 100000",
    "--warehouses 2 --customers 1000 --items 50000 --orders 6000 --population 3",
]

TOLD = re.compile(rb"1 OutOfMemory\nsome (\d+) MB for these options: a lower (--[a-z]+) takes the least\n")


def taken(words):
    """The most memory that a script without lines takes with these words, in MB."""
    with start(["script", *words], stdin=-3, stdout=-3) as process:
        _, status, used = os.wait4(process.pid, 0)
        process.returncode = os.waitstatus_to_exitcode(status)
    same(f"the status with {words}", process.returncode, 0)
    return used.ru_maxrss * 1024 / 1_000_000


def refused_in(megabytes, words):
    """What is told of a script with these words where there is so much memory."""
    limit = megabytes * 1_000_000
    ran = run(["script", *words], before=lambda: resource.setrlimit(resource.RLIMIT_AS, (limit, limit)))
    return TOLD.fullmatch(ran.err)


@shows
def want_of_memory_is_told_with_what_is_taken():
    for words in KINDS:
        words = words.split()
        took, told = taken(words), refused_in(12, words)
        same(f"whether {words} is refused in 12 MB, and told", bool(told), True)
        if told:
            estimate = int(told[1])
            same(f"whether {estimate} MB is near {took:.0f} MB, of {words}", abs(estimate - took) <= 0.2 * took, True)


LEAST = {"--warehouses": "1", "--districts": "1", "--customers": "10", "--items": "20"}

# What is asked for in how many MB, and the option that lowers it most.
ADVISED = [
    (12, "--warehouses 8 --districts 2 --customers 1000 --items 100000 --orders 1000", "--warehouses"),
    (12, "--warehouses 2 --customers 1000 --items 100000 --orders 6000", "--districts"),
    (7, "--districts 1 --customers 3000 --items 20 --orders 3000", "--customers"),
    (12, "--districts 1 --customers 10 --items 100000 --orders 10", "--items"),
    (12, "--orders 12000", "--orders"),
]


@shows
def the_option_that_is_told_lowers_most():
    for megabytes, words, option in ADVISED:
        told = refused_in(megabytes, words.split())
        same(f"the option that is told of {words}", told and told[2].decode(), option)
        given = dict(zip(words.split()[::2], words.split()[1::2]))
        least = LEAST | {"--orders": given.get("--customers", "100")}
        lowered = {
            name: taken([word for pair in (given | {name: number}).items() for word in pair])
            for name, number in least.items()
        }
        # What a process takes isn't told below what this one does.
        same(f"whether nothing lowers {words} more", lowered[option] <= 1.2 * min(lowered.values()), True)


@shows
def want_of_memory_on_files_is_told_without_an_option():
    with tempfile.TemporaryDirectory() as folder:
        scale = "--warehouses 1 --districts 10 --customers 1000 --items 1000 --orders 1000 --commits 1000".split()
        same("the status of a run", run_in(folder, *scale, *TWO, "--count", "1").status, 0)
        limit = 12_000_000
        for subcommand in ("recover", "check"):
            ran = run(
                [subcommand, *scale, "--logs", folder, "--loggers", "2"],
                before=lambda: resource.setrlimit(resource.RLIMIT_AS, (limit, limit)),
            )
            match = re.fullmatch(rb"1 OutOfMemory\nsome \d+ MB for these options, and more for what the log files hold\n", ran.err)
            same(f"whether {subcommand} tells what it takes, and not {ran.err}", bool(match), True)
