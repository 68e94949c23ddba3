"""Tests of the built program going on from log files that are there: `run --resume`."""

import fcntl
import random
import resource
import signal
import subprocess
import tempfile
import time
from collections import namedtuple
from pathlib import Path

import kills
from checks import SECONDS, SMALL, Checks, ends, run, same, shows_runs, start
from flaws import with_bytes
from logs import (
    FIRST_VERSION, LATER, LATEST_EPOCH, LOGS, LONG, SCALE, TWO, body, contents_of, counts_of, entry, inputs_of, log,
    put_files, run_in, void,
)
from voids import replayed

# The scale of SMALL, one terminal, and no input.
NO_INPUT = [*SMALL[1:], "--terminals", "1", "--count", "0", "--resume"]


def on_files(files, *words, loggers=None, **how):
    """Resumes a run on these log files. Gives how it ended, and the files then."""
    with tempfile.TemporaryDirectory() as folder:
        put_files(folder, files)
        ran = run_in(folder, "--loggers", str(loggers or len(files)), *words, **how)
        left = contents_of(folder)
    return ran, [left[name] for name in sorted(left)]


def said_first(output):
    """What a resumed run says first, and what it writes behind that."""
    first, _, behind = output.partition(b"\n")
    return first, behind


@shows_runs
def a_run_goes_on_behind_what_log_files_hold():
    lost = void(6, 8) + b"\1"
    # A restart was stopped between the files: the epoch up to which both are durable is then 7.
    stopped = [LOGS[0][:-1] + b"\1" + void(6, 8) + b"\0", LATER]
    whole_files = [log(0, 1, body(9, entry(1, 9, 0)))]
    kinds = [
        # The second file has entries behind the epoch up to which both are durable, which the restart declares void.
        ("files with lost epochs", LOGS, b"resumed 2 epoch 9", lost, 8),
        ("one with a void body", stopped, b"resumed 2 epoch 9", void(8, 8) + b"\1", 8),
        ("whole files", whole_files, b"resumed 1 epoch 10", b"", 9),
        ("files without bodies", [log(0, 2), log(1, 2)], b"resumed 0 epoch 1", b"", 0),
    ]
    for what, files, first, added, top in kinds:
        ran, left = on_files(files, *NO_INPUT)
        said, behind = said_first(ran.out)
        counts = counts_of(behind)
        same(f"the status on {what}", ran.status, 0)
        same(f"the errors on {what}", ran.err, b"")
        same(f"what is said first on {what}", said, first)
        same(f"the inputs on {what}", inputs_of(counts), 0)
        same(f"whether epochs fall on {what}", counts.durable >= top, True)
        for before, now in zip(files, left):
            front = before[:-1] + b"\1" + added
            same(f"the beginning of a file that was gone on with of {what}", now[: len(front)], front)


# The first file of LOGS once its restart was stopped between the files, and once the next one was stopped there too.
BEGUN = LOGS[0][:-1] + b"\1" + void(6, 8) + b"\0"
BEGUN_AGAIN = BEGUN[:-1] + b"\1" + void(8, 8) + b"\0"

# Two files that were gone on with, until a second stop: of three commits, and one of epoch 10 that isn't durable.
SECOND_LIFE = [
    BEGUN[:-1] + b"\1" + body(9, entry(3, 9, 0)) + b"\0",
    LATER[:-1] + b"\1" + void(6, 8) + b"\1" + body(12, entry(4, 10, 1)) + b"\0",
]
SECOND_BEGUN = SECOND_LIFE[0][:-1] + b"\1" + void(10, 12) + b"\0"

# A restart: its files, the one to which it appends a void body, of which epochs, and which the next restart declares
# void in both files where that body hasn't come in, and where it has; and the commits and the epoch that it says.
Restart = namedtuple("Restart", "what files place epochs without behind said")

RESTARTS = [
    Restart("the first file", LOGS, 0, (6, 8), (6, 8), (8, 8), (2, 9)),
    Restart("the second file", [BEGUN, LATER], 1, (6, 8), (8, 8), None, (2, 9)),
    Restart("the first file, in a second restart", [BEGUN, LATER], 0, (8, 8), (8, 8), (8, 8), (2, 9)),
    Restart("the second file, in a second restart", [BEGUN_AGAIN, LATER], 1, (8, 8), (8, 8), None, (2, 9)),
    Restart("the first file, in a second life", SECOND_LIFE, 0, (10, 12), (10, 12), None, (3, 13)),
    Restart("the second file, in a second life", [SECOND_BEGUN, SECOND_LIFE[1]], 1, (10, 12), None, None, (3, 13)),
]


def torn(file, text):
    """What a stop may leave of a file while a body comes in at its end: where it is torn, what is left of the file, and
    whether the body has come in."""
    whole = text + b"\0"
    for place in range(1, len(whole)):
        yield f"behind its byte {place}", file + whole[:place], False
        if place % 8 == 0:
            yield f"before its byte {place}", file + bytes(place) + whole[place:], False
    yield "before its gate", file + whole, False
    yield "in its gate", file[:-1] + b"\2" + whole, False
    yield "behind its gate", file[:-1] + b"\1" + whole, True


def goes_on_behind(what, files, whole, epochs, said):
    """Checks of a run on files that say what these whole ones do: its restart declares these epochs void in each."""
    ran, left = on_files(files, *NO_INPUT)
    same(f"how it ends {what}", (ran.status, ran.err), (0, b""))
    same(f"what is said first {what}", said_first(ran.out)[0], b"resumed %d epoch %d" % said)
    added = void(*epochs) + b"\1" if epochs else b""
    for file, now in zip(whole, left):
        front = file[:-1] + b"\1" + added
        same(f"the beginning of a file {what}", now[: len(front)], front)
    same(f"the commits that are left {what}", replayed(left).splitlines()[1], b"commits %d" % said[0])


@shows_runs
def a_run_goes_on_where_a_restart_was_stopped_at_any_byte():
    for restart in RESTARTS:
        for where, left, is_in in torn(restart.files[restart.place], void(*restart.epochs)):
            files, whole = list(restart.files), list(restart.files)
            files[restart.place] = left
            whole[restart.place] = left if is_in else whole[restart.place]
            epochs = restart.behind if is_in else restart.without
            goes_on_behind(f"{where} of a void body of {restart.what}", files, whole, epochs, restart.said)


def left_in(folder):
    return kills.examine(Checks.program, folder, 2, SCALE)


@shows_runs
def runs_go_on_from_one_another():
    with tempfile.TemporaryDirectory() as folder:
        counts = counts_of(run_in(folder, *SCALE, *TWO, "--count", "50").out)
        commits, durable = counts.commits, counts.durable
        for seed in ("2", "3"):
            ran = run_in(folder, *SCALE, *TWO, "--count", "50", "--seed", seed, "--resume")
            said, behind = said_first(ran.out)
            counts = counts_of(behind)
            ends(f"with the seed {seed}", ran, 0, ran.out)
            same(f"what is said first with the seed {seed}", said, b"resumed %d epoch %d" % (commits, durable + 1))
            same(f"the inputs with the seed {seed}", inputs_of(counts), 100)
            same(f"what is acknowledged with the seed {seed}", counts.acknowledged, counts.commits)
            commits, durable = commits + counts.commits, counts.durable
            same(f"what is left with the seed {seed}", left_in(folder), kills.Left(durable, commits))


# A write of W_YTD alone that is one cent more than the customer paid.
UNSOUND = with_bytes(log(0, 1, body(5, entry(1, 4, 0))), 49 + 8 + 8 + 20 + 6, b"\x85")

REFUSED = [
    (
        "a missing commit",
        [log(0, 2, body(5)), LATER],
        b"11 Gap\ncommit 1 is missing\n",
    ),
    (
        "a file without a gate",
        [LOGS[0][:-1], LATER],
        b"10 Damaged\nDIR/log-0: it ends at byte %d, where a gate is to stand\n" % (len(LOGS[0]) - 1),
    ),
    (
        "files in the other order",
        LOGS[::-1],
        b"10 Damaged\nDIR/log-0 is the file of logger 1\n",
    ),
    (
        "an entry of the last epoch",
        [log(0, 1, body(LATEST_EPOCH - 1, entry(1, LATEST_EPOCH, 0)))],
        b"8 EpochFull\n",
    ),
    (
        "an entry of the last epoch, behind one that no commit can have made",
        [log(0, 1, body(LATEST_EPOCH - 1, entry(2, 4, 0)), body(LATEST_EPOCH - 1, entry(3, LATEST_EPOCH, 0)))],
        b"11 Gap\ncommit 1 is missing\n",
    ),
    (
        "files of the first version",
        [log(0, 2, body(5, entry(1, 4, 0)), version=FIRST_VERSION), log(1, 2, body(5), version=FIRST_VERSION)],
        b"10 Damaged\nDIR/log-0: it is of version 1, which can be recovered and checked, not gone on with\n",
    ),
    (
        "a warehouse that got a cent too much",
        [UNSOUND],
        b"10 Damaged\nwhat the log files recover to no commits can have made: `tpcc check` tells more\n",
    ),
]


@shows_runs
def a_run_is_not_resumed_on_files_that_say_what_no_run_can():
    for what, files, text in REFUSED:
        ran, left = on_files(files, *NO_INPUT)
        ends(f"on {what}", ran, 1, err=text)
        same(f"the files with {what}", left, files)


@shows_runs
def a_run_is_not_resumed_without_its_files():
    text = b"9 Device\nDIR/log-%d: can't be opened: No such file or directory (os error 2)\n"
    ran, left = on_files([], *NO_INPUT, loggers=2)
    ends("on no files", ran, 1, err=text % 0)
    same("the files then", left, [])
    ran, left = on_files([log(0, 2)], *NO_INPUT, loggers=2)
    ends("on one file of two", ran, 1, err=text % 1)
    same("the file then", left, [log(0, 2)])
    # A run that isn't to be resumed leaves the files that are there as they are, as ever.
    ran, left = on_files(LOGS, *[word for word in NO_INPUT if word != "--resume"])
    same("the status of a run that isn't to be resumed", ran.status, 1)
    same("the files then", left, LOGS)


@shows_runs
def a_run_is_not_resumed_on_files_that_are_in_use():
    with tempfile.TemporaryDirectory() as folder:
        put_files(folder, [log(0, 1)])
        with open(Path(folder) / "log-0", "rb") as file:
            fcntl.flock(file, fcntl.LOCK_SH)
            ran = run_in(folder, "--loggers", "1", *NO_INPUT)
    ends("while another process reads the file", ran, 1, err=b"9 Device\nDIR/log-0: in use by another process\n")


@shows_runs
def a_resumed_run_is_told_on_an_output_that_fails():
    with open("/dev/full", "wb") as full:
        ran, _ = on_files(LOGS, *NO_INPUT, stdout=full)
    ends("at a full device", ran, 1, err=b"9 Device\nstandard output: No space left on device (os error 28)\n")


@shows_runs
def a_resumed_run_tells_a_device_that_fails():
    def limit_files():
        signal.signal(signal.SIGXFSZ, signal.SIG_IGN)
        resource.setrlimit(resource.RLIMIT_FSIZE, (700, 700))

    ran, left = on_files(LOGS, *NO_INPUT, before=limit_files)
    text = b"9 Device\nDIR/log-1: can't be written: File too large (os error 27)\n"
    ends("where the second file can't grow", ran, 1, err=text)
    same("the first file then", left[0], LOGS[0][:-1] + b"\1" + void(6, 8) + b"\0")
    ran, _ = on_files(left, *NO_INPUT)
    same("the status of the next one", ran.status, 0)
    same("what it says first", said_first(ran.out)[0], b"resumed 2 epoch 9")


@shows_runs
def a_resumed_run_without_a_terminal_shows_nothing():
    with tempfile.TemporaryDirectory() as folder:
        run_in(folder, *LONG, "--count", "20")
        process = start(
            ["run", "--logs", folder, *LONG, "--count", "1000000", "--resume", "--seed", "2"],
            stdin=subprocess.DEVNULL,
            stdout=subprocess.PIPE,
            stderr=subprocess.PIPE,
        )
        try:
            until, size = time.monotonic() + SECONDS, (Path(folder) / "log-0").stat().st_size
            while (Path(folder) / "log-0").stat().st_size < size + 10_000 and time.monotonic() < until:
                time.sleep(0.05)
            time.sleep(1.5)
        finally:
            process.kill()
            out, err = process.communicate()
        resumed, behind = kills.resumed_of(out)
        same("whether it said that it was resumed", resumed is not None, True)
        same("what it wrote behind that", behind, b"")
        same("what its errors got", err, b"")
        left = kills.examine(Checks.program, folder, 2, LONG)
        same("whether anything is left of the life before", left.commits > resumed.commits, True)


def behind_headers(folder, latest):
    """Waits until two log files have more than their headers, and for a random time within so many seconds of that; of
    files that have, until one grows."""

    def wait(run):
        before, until = kills.sizes_in(folder), time.monotonic() + SECONDS
        while time.monotonic() < until and not run.ended:
            now = kills.sizes_in(folder)
            if len(now) == 2 and min(now) > 100 and now != before:
                break
            run.watch(0.001)
        run.watch(random.uniform(0, latest))

    return wait


@shows_runs
def lives_that_are_killed_are_gone_on_with():
    for seed in (1, 2, 3):
        with tempfile.TemporaryDirectory() as folder:
            # Not before the files have their headers, and before much is there to be replayed.
            left, _ = kills.chain(Checks.program, folder, LONG, 4, behind_headers(folder, 0.2))
            same(f"how many lives chain {seed} has", len(left), 4)


@shows_runs
def the_word_resume_stands_alone():
    words_at_fault = [
        ("run --logs . --resume --resume", b"error: the argument '--resume' cannot be used multiple times\n"),
        ("run --logs . --resume=1", b"error: unexpected value '1' for '--resume' found"),
        ("recover --logs . --loggers 1 --resume", b"error: unexpected argument '--resume' found\n"),
    ]
    for words, beginning in words_at_fault:
        ran = run(words.split())
        same(f"the status of {words!r}", ran.status, 2)
        same(f"the output of {words!r}", ran.out, b"")
        same(f"the beginning of the errors of {words!r}", ran.err[: len(beginning)], beginning)
