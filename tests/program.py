#!/usr/bin/env python3
"""Tests the built program as a process: what each stream gets, byte for byte, and the exit status.

    python3 tests/program.py [PROGRAM]

PROGRAM is crates/tpcc/out/tpcc where none is named: `rt ci` leaves it there, and so does `rt run` in crates/tpcc.
Prints a line for each check that failed, and at last `N passed, M failed`; exits with 1 where one failed.
"""

import os
import resource
import signal
import subprocess
import sys
import tempfile
import threading
import time
from pathlib import Path

# Runs that are killed, and what they leave, are told there.
sys.dont_write_bytecode = True
sys.path.insert(0, str(Path(__file__).resolve().parent.parent / "examples"))
import advice
import decks
import devices
import failing
import flaws
import folders
import hostile
import kills
import resumed
import screens
import sparse
import starting
import texts
import voids
import words
from checks import RUNS, SECONDS, SHOWN, SMALL, Checks, Ran, ends, fail, run, same, shows, shows_runs, start, whole
from logs import EIGHT, LATER, LOGS, LONG, SCALE, TWO, body, contents_of, counts_of, inputs_of, log, on_logs, run_in

# ---- Scripts

ORDER = b"neworder 1 1 1 1:1:1 2:1:1 3:1:1 4:1:1 5:1:1\n"


@shows
def a_script_is_answered_and_reported():
    lines = b"payment 1 1 1 1 3 12.34\nshow warehouse 1\nshow customer 1 1 3\n" + ORDER + b"delivery 1 10\n"
    answers = (
        b"payment 1 1 customer 1 1 3 balance -22.34\nwarehouse 1 ytd 212.34\n"
        b"customer 1 1 3 balance -22.34 paid 22.34 payments 2 deliveries 0\n"
        b"neworder 1 1 11 customer 1 lines 15.00 total 15.52 1:1:49:1.00 2:1:49:2.00 3:1:49:3.00 4:1:49:4.00"
        b" 5:1:49:5.00\ndelivery 1 1:8 2:8\n"
    )
    ends("of a script", run(SMALL, lines), 0, whole(answers, 3))
    ends("of no lines", run(SMALL), 0, whole(b"", 0))
    ends("of the default scale", run(["script"]), 0, whole(b"", 0))


# What tests/draws.py draws at this scale from these seeds.
@shows
def a_population_is_drawn_from_its_seed():
    populations = [
        ("0", 50, "customer 10 carrier - lines 5"),
        ("1", 32, "customer 2 carrier - lines 14"),
        ("2", 24, "customer 1 carrier - lines 10"),
        ("18446744073709551615", 79, "customer 10 carrier - lines 9"),
    ]
    for seed, quantity, order in populations:
        args = [*SMALL, "--population", seed]
        ends(f"of no lines with seed {seed}", run(args), 0, whole(b"", 0))
        answers = f"stock 1 1 quantity {quantity} ytd 0 orders 0 remote 0\norder 1 1 10 {order} local 1\n"
        ran = run(args, b"show stock 1 1\nshow order 1 1 10\n")
        ends(f"with seed {seed}", ran, 0, whole(answers.encode(), 0))


@shows
def lines_of_any_bytes_are_answered():
    nines = b"9" * (1024 - 21)
    lines = [
        b"",
        b"\0",
        b"\xff\xfe",
        b"show warehouse 1\r",
        b"payment 1 1 1 1 3 " + nines + b".00",
        b"payment 1 1 1 1 3 9" + nines + b".00",
        b"show warehouse 1",
    ]
    answers = b"14 line 1\n14 line 2\n14 line 3\n14 line 4\n2 line 5\n14 line 6\nwarehouse 1 ytd 200.00\n"
    ends("of lines", run(SMALL, b"\n".join(lines) + b"\n"), 0, whole(answers, 0))
    ends("with no last line feed", run(SMALL, b"\n".join(lines)), 0, whole(answers, 0))


@shows
def refused_lines_are_answers():
    refused = [
        (SMALL, b"hello\n", b"14 line 1\n"),
        (SMALL, b"delivery 1 11\n", b"2 line 1\n"),
        (SMALL, b"neworder 1 1 1 1:1:1 2:1:1 3:1:1 4:1:1 21:1:1\n", b"5 line 1 item 21\n"),
        (["script", "--customers", "10", "--orders", "10"], ORDER, b"6 line 1\n"),
    ]
    for args, line, answer in refused:
        ends(f"of {line!r}", run(args, line), 0, whole(answer, 0))
    line = b"payment 1 1 1 1 3 1.00\n"
    answers = b"payment 1 1 customer 1 1 3 balance -11.00\n7 line 2\n"
    ends("at the commit cap", run(["script", "--commits", "1"], line * 2), 0, whole(answers, 1))


@shows
def an_answer_is_out_before_the_next_line_comes():
    process = start(SMALL, stdin=subprocess.PIPE, stdout=subprocess.PIPE, stderr=subprocess.PIPE)
    timer = threading.Timer(SECONDS, process.kill)
    timer.start()
    try:
        for line, answer in [(b"show warehouse 1\n", b"warehouse 1 ytd 200.00\n"), (b"hello\n", b"14 line 2\n")]:
            process.stdin.write(line)
            process.stdin.flush()
            same(f"the answer to {line!r}", process.stdout.readline(), answer)
        out, err = process.communicate()
        ends("then", Ran(process.returncode, out, err), 0, whole(b"", 0))
    finally:
        timer.cancel()
        process.kill()


@shows
def a_million_lines_are_answered():
    lines, answers, commits = [], [], 0
    for number in range(1, 1_000_001):
        if number % 2 == 0:
            lines.append(b"hello\n")
            answers.append(b"14 line %d\n" % number)
            continue
        lines.append(b"payment 1 1 1 1 3 1.00\n")
        if commits < 100_000:
            commits += 1
            answers.append(b"payment 1 1 customer 1 1 3 balance -%d.00\n" % (10 + commits))
        else:
            answers.append(b"7 line %d\n" % number)
    ran = run(["script"], b"".join(lines), seconds=120)
    same("the number of lines", ran.out.count(b"\n"), 1_000_012)
    ends("of a million lines", ran, 0, whole(b"".join(answers), commits))


# ---- Words

HELP = b"""TPC-C on Silo's commit, with proofs

Usage: tpcc <COMMAND>

Commands:
  script   Answers the lines of standard input, then reports the consistency conditions
  run      Runs terminals in threads, and writes what they commit to log files
  recover  Shows what log files recover to: durable epoch, commits, and the rows of warehouses and districts
  check    Reports the consistency conditions of what log files recover to
  info     Tells the version, loggers and options of the tables that log files were made with
  help     Print this message or the help of the given subcommand(s)

Options:
  -h, --help     Print help
  -V, --version  Print version
"""

TABLE_OPTIONS = b"""      --warehouses <N>     The number of warehouses, 1 to 8 [default: 1]
      --districts <N>      Districts of a warehouse, 1 to 10 [default: 10]
      --customers <N>      Customers of a district, 10 to 3000 [default: 100]
      --items <N>          The number of items, 20 to 100000 [default: 1000]
      --orders <N>         The order cap of a district, from the customers to 100000 [default: 3000]
      --commits <N>        The commit cap, 1 to 600000 [default: 100000]
      --population <SEED>  The seed that the population is drawn from, or 0 for the plain one [default: 0]
  -h, --help               Print help
"""

SCRIPT_HELP = b"""Answers the lines of standard input, then reports the consistency conditions

Usage: tpcc script [OPTIONS]

Options:
      --explain            Tells of each refused line on standard error what is wrong with it
""" + TABLE_OPTIONS + b"""
Lines of standard input, the words of each parted by one space:
  payment W D CW CD WHO AMOUNT   warehouse W, district D, customer WHO of warehouse CW, district CD
  neworder W D C LINE LINE ..    5 to 15 lines, each ITEM:SUPPLY:QUANTITY
  delivery W CARRIER             CARRIER from 1 to 10
  status W D WHO
  level W D THRESHOLD            THRESHOLD from 10 to 20
  show warehouse W
  show district W D
  show customer W D C
  show data W D C
  show stock W I
  show order W D O
WHO is a customer's number, or a last name in capitals, as BARBARESE. Numbers have no leading zero; an amount, from
1.00 to 5000.00, has two digits behind a point. A line that can't be done is answered by `R line N`, where R is:
  14  line N is in none of the forms, or longer than 1024 bytes
  2   a number is outside its range
  5   an item isn't in ITEM: `5 line N item I`
  6   the district has no order number left, up to --orders
  7   the commits are at --commits
With --explain, standard error tells of each such line what is wrong with it.
"""

RUN_HELP = b"""Runs terminals in threads, and writes what they commit to log files

Usage: tpcc run [OPTIONS] --logs <DIR>

Options:
      --logs <DIR>         The folder of the log files, log-0, log-1 and so on
      --loggers <N>        The number of loggers, 1 to 8 [default: 2]
      --terminals <N>      The number of terminals, 1 to 16 [default: 4]
      --count <N>          Inputs of each terminal, 0 to 1000000 [default: 100]
      --seed <SEED>        The seed that the inputs are drawn from [default: 1]
      --resume             Goes on from the log files that are there, after a run that ended or was stopped
""" + TABLE_OPTIONS + b"""
Each logger makes a file of its own in DIR: log-0, log-1 and so on. Where one is there already, nothing is run.
What the files hold outlives a crash: `tpcc recover` shows what that is, and `tpcc check` its consistency conditions,
for the same DIR, as many loggers, and the same options of the tables.
With --resume a run goes on from what they hold: for the same DIR, as many loggers, and the same options of the tables.
It first prints `resumed M epoch E`: M commits were recovered, and it commits in epoch E and later ones. Give another
--seed than before, or its inputs are those of the run before. Where a file is missing or damaged, nothing is run.
"""

LOGS_HELP = b"""

Usage: tpcc %s [OPTIONS] --logs <DIR> --loggers <N>

Options:
      --logs <DIR>         The folder of the log files, log-0, log-1 and so on
      --loggers <N>        How many loggers wrote them, 1 to 8
      --threads <N>        The number of threads that read the files, 1 to 8 [default: 1]
""" + TABLE_OPTIONS

RECOVER_HELP = b"Shows what log files recover to: durable epoch, commits, and the rows of warehouses and districts"

CHECK_HELP = b"Reports the consistency conditions of what log files recover to"

INFO_HELP = b"""Tells the version, loggers and options of the tables that log files were made with

Usage: tpcc info --logs <DIR>

Options:
      --logs <DIR>  The folder of the log files, log-0, log-1 and so on
  -h, --help        Print help
"""

MORE = b"\n\nFor more information, try '--help'.\n"


@shows
def help_goes_to_the_errors():
    for args in ([], ["--help"], ["-h"], ["help"]):
        ends(f"of {args}", run(args), 2, err=HELP)
    for args in (["script", "--help"], ["help", "script"]):
        ends(f"of {args}", run(args), 2, err=SCRIPT_HELP)
    ends("of run", run(["run", "--help"]), 2, err=RUN_HELP)
    ends("of recover", run(["recover", "--help"]), 2, err=RECOVER_HELP + LOGS_HELP % b"recover")
    ends("of check", run(["check", "--help"]), 2, err=CHECK_HELP + LOGS_HELP % b"check")
    ends("of info", run(["info", "--help"]), 2, err=INFO_HELP)


@shows
def faults_of_the_words_go_to_the_errors():
    faults = [
        ("scribe", b"error: unrecognized subcommand 'scribe'\n\n  tip: a similar subcommand exists: 'script'\n\n"
                   b"Usage: tpcc <COMMAND>"),
        ("script --warehouse 1", b"error: unexpected argument '--warehouse' found\n\n"
                                 b"  tip: a similar argument exists: '--warehouses'\n\n"
                                 b"Usage: tpcc script --warehouses <N>"),
        ("script --items x", b"error: invalid value 'x' for '--items <N>': invalid digit found in string"),
        ("script --items", b"error: a value is required for '--items <N>' but none was supplied"),
        ("script --population x", b"error: invalid value 'x' for '--population <SEED>': invalid digit found in string"),
        ("script --population 18446744073709551616", b"error: invalid value '18446744073709551616' for"
         b" '--population <SEED>': number too large to fit in target type"),
        ("recover --logs . --loggers 9", b"error: invalid value '9' for '--loggers <N>': 9 is not in 1..=8"),
        ("check --logs . --loggers 0", b"error: invalid value '0' for '--loggers <N>': 0 is not in 1..=8"),
        ("recover --logs . --loggers 1 --threads 0",
         b"error: invalid value '0' for '--threads <N>': 0 is not in 1..=8"),
        ("check --logs . --loggers 1 --threads 9",
         b"error: invalid value '9' for '--threads <N>': 9 is not in 1..=8"),
        ("recover --logs . --loggers 1 --threads x",
         b"error: invalid value 'x' for '--threads <N>': invalid digit found in string"),
        ("check --logs . --loggers 1 --threads 2 --threads 2",
         b"error: the argument '--threads <N>' cannot be used multiple times\n\n"
         b"Usage: tpcc check [OPTIONS] --logs <DIR> --loggers <N>"),
        ("script --threads 2", b"error: unexpected argument '--threads' found\n\nUsage: tpcc script [OPTIONS]"),
        ("recover --loggers 1", b"error: the following required arguments were not provided:\n  --logs <DIR>\n\n"
                                b"Usage: tpcc recover --logs <DIR> --loggers <N>"),
        ("check --logs .", b"error: the following required arguments were not provided:\n  --loggers <N>\n\n"
                           b"Usage: tpcc check --logs <DIR> --loggers <N>"),
    ]
    for words, text in faults:
        ends(f"of {words!r}", run(words.split(), b"show warehouse 1\n"), 2, err=text + MORE)


@shows
def words_that_are_no_text_go_to_the_errors():
    for args in ([b"\xff"], [b"script", b"--items", b"2\xff0"]):
        ends(f"of {args}", run(args), 2, err=b"error: the command line can't be read: invalid data\n")


@shows
def scales_at_their_limits_are_taken():
    least = "script --warehouses 1 --districts 1 --customers 10 --items 20 --orders 10 --commits 1"
    most = "script --warehouses=8 --districts=10 --customers=10 --items=20 --orders=10 --commits=600000"
    ends("at the least scale", run(least.split()), 0, whole(b"", 0))
    shown = run(most.split(), b"show district 8 10\nshow district 9 1\nshow district 8 11\n")
    ends("at eight warehouses", shown, 0, whole(b"district 8 10 ytd 100.00 next 11\n2 line 2\n2 line 3\n", 0))


@shows
def a_scale_outside_its_limits_is_refused():
    scales = [
        ("--warehouses 0", "--warehouses is 0: it is to be from 1 to 8"),
        ("--warehouses 9", "--warehouses is 9: it is to be from 1 to 8"),
        ("--districts 0", "--districts is 0: it is to be from 1 to 10"),
        ("--districts 11", "--districts is 11: it is to be from 1 to 10"),
        ("--customers 9", "--customers is 9: it is to be from 10 to 3000"),
        ("--customers 3001", "--customers is 3001: it is to be from 10 to 3000"),
        ("--items 19", "--items is 19: it is to be from 20 to 100000"),
        ("--items 100001", "--items is 100001: it is to be from 20 to 100000"),
        ("--customers 10 --orders 9", "--orders is 9: it is to be from 10 (the customers) to 100000"),
        ("--orders 100001", "--orders is 100001: it is to be from 100 (the customers) to 100000"),
        ("--commits 0", "--commits is 0: it is to be from 1 to 600000"),
        ("--commits 4294967295", "--commits is 4294967295: it is to be from 1 to 600000"),
        ("--commits 600001 --items 1", "--items is 1: it is to be from 20 to 100000"),
    ]
    for words, detail in scales:
        ran = run(["script", *words.split()], b"show warehouse 1\n")
        ends(f"of {words}", ran, 2, err=b"13 BadScale\n%s\n" % detail.encode())


# ---- Log files


@shows
def log_files_are_recovered():
    shown = b"durable 5\ncommits 2\nwarehouse 1 ytd 202.00\ndistrict 1 1 ytd 102.00 next 11\n"
    other = b"district 1 2 ytd 100.00 next 11\n"
    ends("of recover", on_logs("recover", LOGS), 0, shown + other)
    ends("of check", on_logs("check", LOGS), 0, whole(b"", 2))
    first = b"durable 0\ncommits 0\nwarehouse 1 ytd 200.00\ndistrict 1 1 ytd 100.00 next 11\n"
    ends("of recover without bodies", on_logs("recover", [log(0, 1)]), 0, first + other)
    ends("of check without bodies", on_logs("check", [log(0, 1)]), 0, whole(b"", 0))
    left_aside = [LOGS[0] + b"\1rest", LATER]
    ends("of what follows a closed gate", on_logs("recover", left_aside), 0, shown + other)


@shows
def log_files_of_eight_loggers_are_recovered():
    shown = b"durable 9\ncommits 8\nwarehouse 1 ytd 208.00\ndistrict 1 1 ytd 108.00 next 11\n"
    ends("of recover", on_logs("recover", EIGHT), 0, shown + b"district 1 2 ytd 100.00 next 11\n")
    ends("of check", on_logs("check", EIGHT), 0, whole(b"", 8))


@shows
def log_files_are_recovered_alike_in_any_number_of_threads():
    kinds = [
        ("two files", LOGS, 0),
        ("eight files", EIGHT, 0),
        ("a missing commit", [log(0, 2, body(5)), LATER], 1),
        ("a file without a header", [LOGS[0], b""], 1),
        ("two files without a header", [b"", b""], 1),
    ]
    for subcommand in ("recover", "check"):
        for what, logs, status in kinds:
            alone = on_logs(subcommand, logs)
            same(f"the status of {subcommand} of {what}", alone.status, status)
            for threads in map(str, range(1, 9)):
                ran = on_logs(subcommand, logs, scale=[*SMALL[1:], "--threads", threads])
                ends(f"of {subcommand} of {what} in {threads} threads", ran, *alone)


@shows
def faults_of_log_files_come_behind_those_of_a_scale():
    for subcommand in ("recover", "check"):
        ran = on_logs(subcommand, [b""], scale=["--items", "1"])
        text = b"13 BadScale\n--items is 1: it is to be from 20 to 100000\n"
        ends(f"of {subcommand} at a bad scale", ran, 2, err=text)


@shows
def log_files_are_told_on_an_output_that_fails():
    for subcommand in ("recover", "check"):
        with open("/dev/full", "wb") as full:
            ran = on_logs(subcommand, LOGS, stdout=full)
        text = b"9 Device\nstandard output: No space left on device (os error 28)\n"
        ends(f"of {subcommand} at a full device", ran, 1, err=text)


# ---- Runs of terminals in threads, with log files

def counts_and_recovers(what, words, inputs, loggers):
    """Checks of a run to its end: its counts, its log files, and what they recover to. Gives the counts, the rows that
    were recovered, and the files."""
    with tempfile.TemporaryDirectory() as folder:
        ran = run_in(folder, *SCALE, *words)
        counts = counts_of(ran.out)
        ends(f"of {what}", ran, 0, ran.out)
        same(f"the number of inputs of {what}", inputs_of(counts), inputs)
        same(f"what is acknowledged of {what}", counts.acknowledged, counts.commits)
        files = contents_of(folder)
        same(f"the files of {what}", sorted(files), [f"log-{logger}" for logger in range(loggers)])
        left = kills.examine(Checks.program, folder, loggers, SCALE)
        same(f"what is left of {what}", left, kills.Left(counts.durable, counts.commits))
        rows = kills.answer(Checks.program, "recover", folder, loggers, SCALE).split("\n", 2)[2]
        same(f"the files of {what} once they are read", contents_of(folder), files)
    return counts, rows, files


@shows_runs
def a_run_is_counted_and_its_log_files_are_recovered():
    counts_and_recovers("two terminals", [*TWO, "--count", "50"], 100, 2)
    counts_and_recovers("the default terminals", [], 400, 2)
    counts_and_recovers("sixteen terminals", "--terminals 16 --loggers 8 --count 20".split(), 320, 8)
    counts_and_recovers("more loggers than terminals", "--terminals 1 --loggers 8 --count 100".split(), 100, 8)


@shows_runs
def a_run_of_no_inputs_is_counted():
    counts, _, _ = counts_and_recovers("no inputs", [*TWO, "--count", "0"], 0, 2)
    same("the commits of no inputs", counts.commits, 0)


@shows_runs
def a_run_is_refused_at_its_caps():
    words = "--terminals 4 --loggers 2 --count 800".split()
    counts, _, _ = counts_and_recovers("more inputs than the commit cap", words, 3200, 2)
    same("the commits at the commit cap", counts.commits, 2000)


@shows_runs
def a_run_is_drawn_from_its_seed():
    words = "--terminals 1 --loggers 1 --count 200".split()
    first, *others = [
        (counts._replace(durable=0), rows)
        for counts, rows, _ in [
            counts_and_recovers(f"one terminal, {seed}", [*words, *seed.split()], 200, 1)
            for seed in ("--seed 1", "", "--seed 1", "--seed 18446744073709551615")
        ]
    ]
    same("the default seed", others[0], first)
    same("a seed again", others[1], first)
    same("whether another seed is another run", others[2] != first, True)


@shows_runs
def a_run_begins_with_its_population():
    with tempfile.TemporaryDirectory() as folder:
        scale = [*SCALE, "--population", "1"]
        ran = run_in(folder, *scale, *TWO, "--count", "50")
        counts = counts_of(ran.out)
        ends("with a seeded population", ran, 0, ran.out)
        logs = ["--logs", folder, "--loggers", "2"]
        ends("of check on it", run(["check", *scale, *logs]), 0, whole(b"", counts.commits))
        text = f"10 Damaged\n--population 0, but {folder}/log-0 is of 1\n"
        ends("of check with the plain one", run(["check", *SCALE, *logs]), 1, err=text.encode())


@shows_runs
def log_files_that_are_there_are_left_as_they_are():
    words = [*SCALE, *TWO, "--count", "50"]
    text = b"9 Device\nDIR/%s: can't be created, and the file that is there is left as it is (--resume goes on with it): File exists (os error 17)\n"
    with tempfile.TemporaryDirectory() as folder:
        same("the status of a first run", run_in(folder, *words).status, 0)
        files = contents_of(folder)
        ends("of a second run", run_in(folder, *words), 1, err=text % b"log-0")
        same("the files after a second run", contents_of(folder), files)
    alone = b"9 Device\nDIR/log-1: is there without log-0\n"
    for name, told in (("log-0", text % b"log-0"), ("log-1", alone)):
        with tempfile.TemporaryDirectory() as folder:
            (Path(folder) / name).write_bytes(b"here")
            ends(f"where {name} is there", run_in(folder, *words), 1, err=told)
            same("the files after it", contents_of(folder), {name: b"here"})


@shows_runs
def faults_of_a_run_come_in_their_order():
    words_at_fault = [
        ("", b"error: the following required arguments were not provided:\n  --logs <DIR>\n"),
        ("--logs DIR --terminals 0", b"error: invalid value '0' for '--terminals "),
        ("--logs DIR --terminals 17", b"error: invalid value '17' for '--terminals "),
        ("--logs DIR --loggers 0", b"error: invalid value '0' for '--loggers "),
        ("--logs DIR --loggers 9", b"error: invalid value '9' for '--loggers "),
        ("--logs DIR --count 1000001", b"error: invalid value '1000001' for '--count "),
        ("--logs DIR --seed 18446744073709551616", b"error: invalid value '18446744073709551616' for '--seed "),
        ("--logs DIR --threads 2", b"error: unexpected argument '--threads' found\n"),
        ("--logs DIR --items 1 --count x", b"error: invalid value 'x' for '--count "),
    ]
    with tempfile.TemporaryDirectory() as folder:
        for words, beginning in words_at_fault:
            ran = run(["run", *words.replace("DIR", folder).split()])
            same(f"the status of {words!r}", ran.status, 2)
            same(f"the output of {words!r}", ran.out, b"")
            same(f"the beginning of the errors of {words!r}", ran.err[: len(beginning)], beginning)
        missing = str(Path(folder) / "missing")
        text = b"13 BadScale\n--items is 1: it is to be from 20 to 100000\n"
        for logs in (folder, missing):
            ends(f"of a bad scale in {logs}", run_in(logs, "--items", "1"), 2, err=text)
        # The population alone takes some 300 MB.
        limit = 64 * 1024 * 1024
        large = "--warehouses 8 --customers 3000 --items 100000".split()
        ran = run_in(missing, *large, before=lambda: resource.setrlimit(resource.RLIMIT_AS, (limit, limit)))
        text = b"1 OutOfMemory\nsome 806 MB for these options: a lower --warehouses takes the least\n"
        ends("of a large population in no folder", ran, 1, err=text)
        text = b"9 Device\nDIR/log-0: can't be created: No such file or directory (os error 2)\n"
        ends("in no folder", run_in(missing, *SCALE), 1, err=text)
        same("what faults leave in a folder", contents_of(folder), {})


@shows_runs
def a_logger_whose_device_fails_stops():
    def limit_files():
        signal.signal(signal.SIGXFSZ, signal.SIG_IGN)
        resource.setrlimit(resource.RLIMIT_FSIZE, (20_000, 20_000))

    with tempfile.TemporaryDirectory() as folder:
        ran = run_in(folder, *SCALE, *TWO, "--count", "500", before=limit_files)
        counts = counts_of(ran.out)
        same("the status of it", ran.status, 1)
        texts = [b"9 Device\nDIR/log-%d: can't be written: File too large (os error 27)\n" % logger for logger in (0, 1)]
        same("whether the errors of it tell a file", ran.err in texts, True)
        same("the number of inputs of it", inputs_of(counts), 1000)
        left = kills.examine(Checks.program, folder, 2, SCALE)
        same("whether it is durable as it says", left.durable >= counts.durable, True)
        same("whether it keeps what is acknowledged", counts.acknowledged <= left.commits < counts.commits, True)


@shows_runs
def a_run_is_told_on_an_output_that_fails():
    with tempfile.TemporaryDirectory() as folder:
        with open("/dev/full", "wb") as full:
            ran = run_in(folder, *SCALE, *TWO, "--count", "50", stdout=full)
        ends("at a full device", ran, 1, err=b"9 Device\nstandard output: No space left on device (os error 28)\n")
        kills.examine(Checks.program, folder, 2, SCALE)


def falls(lines):
    """Whether a number of progress lines falls from one to the next, but for the commits a second."""
    numbers = [line._replace(rate=0) for line in lines]
    return any(left > right for line, later in zip(numbers, numbers[1:]) for left, right in zip(line, later))


def progress_of_a_run(inputs):
    """Checks what a run of four terminals with so many inputs each shows on a terminal. Gives the progress lines, and how
    many seconds the whole run took.
    """
    with tempfile.TemporaryDirectory() as folder:
        begun = time.monotonic()
        long = kills.Run(Checks.program, folder, [*LONG, "--count", str(inputs)])
        timer = threading.Timer(SECONDS, long.process.kill)
        timer.start()
        try:
            # (a second less what it takes to start)
            long.watch(0.7)
            same("what a terminal is shown in the first second", long.shown, b"")
            status, output = long.close()
        finally:
            timer.cancel()
            long.process.kill()
        seconds = time.monotonic() - begun
        same("the status of a long run", status, 0)
        counts, (lines, summary) = counts_of(output), kills.progress_of(long.shown)
        same("the number of inputs of a long run", inputs_of(counts), 4 * inputs)
        same("what is acknowledged of a long run", counts.acknowledged, counts.commits)
        same("whether there are at most ten lines a second", len(lines) <= 10 * seconds, True)
        same("the end of what is shown", long.shown[-1:], b"\n" if lines else b"")
        same("whether a number falls", falls(lines), False)
        for last in lines[-1:]:
            same("whether too many commits are shown", last.commits > counts.commits, False)
            same("whether too many are shown as acknowledged", last.acknowledged > counts.acknowledged, False)
            same("whether too late an epoch is shown as durable", last.durable > counts.durable, False)
            same("how many are summed up", sum(summary.kinds), counts.acknowledged)
            same("whether a kind is missing", 0 in summary.kinds, False)
            same("whether a longer time is told", summary.seconds > seconds, False)
            same("whether a shorter one than a second is", summary.seconds < 1, False)
            least, most = (counts.commits / (summary.seconds + off) for off in (0.1, 0))
            same("whether the commits a second are so many", least <= summary.rate + 1 and summary.rate <= most, True)
            same("whether the mean wait is above most", summary.mean > summary.most, False)
            same("whether the half of them waits longer than most", summary.half > summary.most, False)
            # An epoch is 5 ms long.
            same("whether the waits are too short", summary.most < 4, False)
    return lines, seconds


@shows_runs
def a_long_run_shows_its_progress_on_a_terminal():
    # How many inputs are a long run, goes by the machine.
    for inputs in (40_000, 200_000, 1_000_000):
        lines, seconds = progress_of_a_run(inputs)
        if seconds > 3:
            break
    same("whether a long run shows lines", lines != [], True)


@shows_runs
def a_run_without_a_terminal_shows_nothing():
    with tempfile.TemporaryDirectory() as folder:
        process = start(
            ["run", "--logs", folder, *LONG, "--count", "1000000"],
            stdin=subprocess.DEVNULL,
            stdout=subprocess.PIPE,
            stderr=subprocess.PIPE,
        )
        try:
            log, until = Path(folder) / "log-0", time.monotonic() + SECONDS
            while not (log.exists() and log.stat().st_size > 10_000) and time.monotonic() < until:
                time.sleep(0.05)
            time.sleep(1.5)
        finally:
            process.kill()
            out, err = process.communicate()
        ends("of a long run that is killed", Ran(process.returncode, out, err), -signal.SIGKILL)
        kills.examine(Checks.program, folder, 2, LONG)


@shows_runs
def runs_that_are_killed_are_recovered():
    for seed in (1, 2, 3):
        with tempfile.TemporaryDirectory() as folder:
            last, left = kills.kill_and_examine(Checks.program, folder, LONG, seed, latest=1.0)
            same("whether what was acknowledged is recovered", last.acknowledged <= left.commits, True)


# ---- Devices and memory


@shows
def an_output_that_fails_ends_the_run():
    reader, writer = os.pipe()
    os.close(reader)
    ran = run(SMALL, b"show warehouse 1\n", stdout=writer)
    os.close(writer)
    ends("at a closed pipe", ran, 1, err=b"9 Device\nstandard output: Broken pipe (os error 32)\n")
    with open("/dev/full", "wb") as full:
        ran = run(SMALL, b"show warehouse 1\n", stdout=full)
    ends("at a full device", ran, 1, err=b"9 Device\nstandard output: No space left on device (os error 28)\n")
    ran = run(SMALL, b"show warehouse 1\n", stdout=None, before=lambda: os.close(1))
    ends("with no output", ran, 1, err=b"9 Device\nstandard output: Bad file descriptor (os error 9)\n")


@shows
def an_input_that_fails_ends_the_run():
    folder = os.open("/", os.O_RDONLY)
    ran = run(SMALL, stdin=folder)
    os.close(folder)
    ends("of a directory", ran, 1, err=b"9 Device\nstandard input: Is a directory (os error 21)\n")
    ran = run(SMALL, before=lambda: os.close(0))
    ends("with no input", ran, 1, err=b"9 Device\nstandard input: Bad file descriptor (os error 9)\n")


@shows
def errors_that_can_not_be_written_change_no_status():
    ends("of a bad scale", run(["script", "--items", "1"], before=lambda: os.close(2)), 2)
    ends("of help", run(["--help"], before=lambda: os.close(2)), 2)
    ends("of a good run", run(SMALL, before=lambda: os.close(2)), 0, whole(b"", 0))


# The scale's records take 1,088 MB, and the program's own start a few.
@shows
def want_of_memory_is_a_refusal():
    limit = 256 * 1024 * 1024
    ran = run(
        ["script", "--orders", "100000"],
        b"show warehouse 1\n",
        before=lambda: resource.setrlimit(resource.RLIMIT_AS, (limit, limit)),
    )
    text = b"1 OutOfMemory\nsome 1093 MB for these options: a lower --orders takes the least\n"
    ends("of a large scale", ran, 1, err=text)


def main():
    if len(sys.argv) > 1:
        Checks.program = Path(sys.argv[1]).resolve()
    has_runs = b"unrecognized subcommand" not in run(["run", "--help"]).err
    if not has_runs:
        print(f"this program has no subcommand run: {len(RUNS)} functions are left out")
    for function in SHOWN + (RUNS if has_runs else []):
        Checks.showing = function.__name__
        try:
            function()
        except (OSError, subprocess.SubprocessError, kills.Failed) as error:
            fail(f"{error}")
    print(f"{Checks.passed} passed, {Checks.failed} failed")
    return 1 if Checks.failed else 0


if __name__ == "__main__":
    sys.exit(main())
