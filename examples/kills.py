#!/usr/bin/env python3
"""Kills runs at random moments, goes on from what they leave, and kills them again.

    kills.py [CHAINS [LIVES]] [PROGRAM]

A chain is the lives of one database: LIVES of them (5), each a `tpcc run` with a pseudo terminal as its standard error,
from the second on with `--resume`. Each is killed with SIGKILL at a random moment: the first one after its progress line
was shown; a later one so, or before it says that it was resumed, or when a log file first grows, which is in the midst
of what a restart writes. The last life runs to its end. There are CHAINS of them (50).

Behind each life `tpcc recover` and `tpcc check` must take what is left, with all conditions ok; replay.py, which knows
the format of the files alone, must say the same as `recover`, and find each text of C_DATA as its Payment leaves it;
what was recovered before must be there, and as many commits more as the life's last line had acknowledged, or more, and
none where it was killed before it was resumed; and the durable epoch never falls. What a resumed life says must be what
had been recovered. PROGRAM is crates/tpcc/out/tpcc where none is named.

Prints a line a chain, and a summary. Ends with 1 where a chain failed; its files stay, in the folder that its line names.
"""

import os
import pty
import random
import re
import select
import shutil
import signal
import subprocess
import sys
import tempfile
import time
import tty
from collections import namedtuple
from contextlib import suppress
from pathlib import Path

sys.dont_write_bytecode = True
import replay

HERE = Path(__file__).resolve().parent
BUILT = HERE.parent / "crates" / "tpcc" / "out" / "tpcc"

TERMINALS, LOGGERS = 4, 2

# Order numbers for as many New-Orders as 600,000 commits have. Memory goes by the order cap: 0.4 GB at the start.
TABLES = "--warehouses 2 --districts 10 --customers 100 --items 1000 --orders 20000 --commits 600000".split()

# In seconds: how long after its first progress line a run is killed at the latest, and how long a program may take
# to show something.
LATEST, SILENT = 0.5, 120.0

CONDITIONS = [*range(1, 11), 12]


class Failed(Exception):
    """What wasn't as it must be."""


# ---- The progress line

Progress = namedtuple("Progress", "inputs commits rate acknowledged epoch durable")

PROGRESS = re.compile(rb"inputs (\d+) commits (\d+) \((\d+)/s\) acknowledged (\d+) epoch (\d+) durable (\d+) *")

# What is left at the end: seconds, commits a second, the mean wait for an acknowledgement, in how many milliseconds a
# half and 99 of 100 were over, and how many of each kind of transaction.
Summary = namedtuple("Summary", "seconds rate mean half most kinds")

SUMMARY = re.compile(
    rb"(\d+\.\d) s, (\d+) commits/s, acknowledged after (\d+) ms, half within (\d+) ms, 99 of 100 within (\d+) ms; "
    rb"New-Order (\d+), Payment (\d+), Order-Status (\d+), Delivery (\d+), Stock-Level (\d+) *"
)


def summary_of(line):
    """The summary that a line is."""
    match = SUMMARY.fullmatch(line)
    if not match:
        raise Failed(f"no summary at the end: {line!r}")
    seconds, *numbers = match.groups()
    rate, mean, half, most, *kinds = map(int, numbers)
    return Summary(float(seconds), rate, mean, half, most, kinds)


def progress_of(shown):
    """The progress lines in what a terminal was shown, in their order, and the summary behind them, or None. Each stands
    behind a carriage return, and is as long as the one before it or longer. A line feed ends the summary. Without it, the
    last line may be cut short, and is then left out.
    """
    text, ended, behind = shown.partition(b"\n")
    front, *lines = text.split(b"\r")
    if front or behind or (ended and len(lines) < 2):
        raise Failed(f"the terminal was shown more than progress lines and a summary: {shown!r}")
    summary = summary_of(lines[-1]) if ended else None
    if ended and len(lines[-1]) < len(lines[-2].rstrip(b" ")):
        raise Failed(f"a summary that leaves some of an older line: {lines[-1]!r}")
    found, width = [], 0
    for place, line in enumerate(lines[:-1] if ended else lines, 1):
        match = PROGRESS.fullmatch(line)
        if not match and not ended and place == len(lines):
            break
        if not match or len(line) < width:
            raise Failed(f"no progress line, or one that leaves some of an older one: {line!r}")
        found.append(Progress(*map(int, match.groups())))
        width = len(line.rstrip(b" "))
    return found, summary


RECOVERY = re.compile(rb"(\rread \d+ of \d+ bytes, \d+ entries *)+\r +\r")


def without_recovery(shown):
    """What a terminal was shown behind the line of a recovery, which is erased at the recovery's end: nothing, where it
    wasn't yet."""
    if not shown.startswith(b"\rread "):
        return shown
    recovery = RECOVERY.match(shown)
    return shown[recovery.end() :] if recovery else b""


class Run:
    """A run of `tpcc run` whose standard error is a terminal."""

    def __init__(self, program, folder, words):
        self.terminal, end = pty.openpty()
        tty.setraw(end)
        words = ["tpcc", "run", "--logs", folder, *words]
        self.process = subprocess.Popen(
            words,
            executable=program,
            stdin=subprocess.DEVNULL,
            stdout=subprocess.PIPE,
            stderr=end,
            # So wide that no progress line is cut.
            env={**os.environ, "COLUMNS": "200"},
        )
        os.close(end)
        self.shown, self.ended = b"", False

    def watch(self, seconds):
        """Takes what the terminal is shown for so long, or until there is no more."""
        until = time.monotonic() + seconds
        while not self.ended and (left := until - time.monotonic()) > 0:
            if select.select([self.terminal], [], [], left)[0]:
                self.take()

    def take(self):
        try:
            piece = os.read(self.terminal, 65536)
        except OSError:  # The other end was closed.
            piece = b""
        self.shown, self.ended = self.shown + piece, not piece

    def close(self):
        """Waits for the process to end. Gives its status and its output."""
        while not self.ended:
            self.take()
        os.close(self.terminal)
        output = self.process.communicate()[0]
        return self.process.returncode, output

    def kill(self):
        self.process.kill()
        return self.close()


# What was seen of a run that was killed: its last progress line, or None, and its output.
Killed = namedtuple("Killed", "last output")


def kill(run, wait):
    """Kills a run once this has waited for its moment."""
    try:
        wait(run)
    finally:
        status, output = run.kill()
    lines, _ = progress_of(without_recovery(run.shown))
    if status != -signal.SIGKILL:
        raise Failed(f"it ended with status {status}, showed {run.shown!r} and wrote {output!r}")
    return Killed(lines[-1] if lines else None, output)


def shown_for(latest):
    """Waits until a random moment within so many seconds of a run's first progress line."""

    def wait(run):
        give_up = time.monotonic() + SILENT
        while not progress_of(without_recovery(run.shown))[0] and not run.ended:
            if time.monotonic() > give_up:
                raise Failed(f"it shows no progress: {run.shown!r}")
            run.watch(0.1)
        run.watch(random.uniform(0, latest))

    return wait


def kill_a_run(program, folder, words, latest=LATEST):
    """Starts a run that doesn't end soon, and kills it at a random moment within so many seconds of its first progress
    line. Gives the last line that was shown."""
    killed = kill(Run(program, folder, words), shown_for(latest))
    if not killed.last or killed.output:
        raise Failed(f"it showed {killed.last} and wrote {killed.output!r}")
    return killed.last


# ---- Resumed runs


def so_soon(seconds):
    """Waits until a random moment within so many seconds of a run's start."""

    def wait(run):
        run.watch(random.uniform(0, seconds))

    return wait


def sizes_in(folder):
    """How long a folder's files are, in the order of their names, but for one that is given another name meanwhile."""
    sizes = []
    for path in sorted(Path(folder).iterdir()):
        with suppress(FileNotFoundError):
            sizes.append(path.stat().st_size)
    return sizes


def grown(folder):
    """Waits until a log file grows."""

    def wait(run):
        before, give_up = sizes_in(folder), time.monotonic() + SILENT
        while sizes_in(folder) == before and not run.ended and time.monotonic() < give_up:
            run.watch(0.0002)

    return wait


RESUMED = re.compile(rb"resumed (\d+) epoch (\d+)\n")

# What a resumed run says first.
Resumed = namedtuple("Resumed", "commits epoch")


def resumed_of(output):
    """What a run said first of its resumption, and what it wrote behind that. None, where it wasn't resumed yet."""
    match = RESUMED.match(output)
    if not match:
        if output:
            raise Failed(f"it wrote {output!r}")
        return None, b""
    return Resumed(*map(int, match.groups())), output[match.end() :]


# ---- What it leaves

Left = namedtuple("Left", "durable commits")


def answer(program, subcommand, folder, loggers, tables):
    """What a subcommand writes about log files, which is to end well."""
    words = ["tpcc", subcommand, "--logs", folder, "--loggers", str(loggers), *tables]
    ran = subprocess.run(words, executable=program, stdin=subprocess.DEVNULL, capture_output=True, timeout=SILENT)
    if ran.returncode != 0 or ran.stderr:
        raise Failed(f"{subcommand} ended with status {ran.returncode}: {ran.stderr!r}")
    return ran.stdout.decode()


def examine(program, folder, loggers, tables):
    """Recovers log files, checks the conditions, and replays them. Gives the durable epoch and the commits."""
    recovered = answer(program, "recover", folder, loggers, tables)
    try:
        replayed = replay.replay(folder, loggers)
    except replay.Damaged as why:
        raise Failed(f"replay.py: {why}") from why
    if replay.text_of(replayed) != recovered:
        raise Failed(f"recover says {recovered!r}, and replay.py {replay.text_of(replayed)!r}")
    checked = answer(program, "check", folder, loggers, tables)
    if checked != "\n".join([f"commits {replayed.commits}", *(f"C{number} ok" for number in CONDITIONS), ""]):
        raise Failed(f"check says {checked!r}")
    return Left(replayed.durable, replayed.commits)


def kill_and_examine(program, folder, tables, seed, latest=LATEST):
    """Kills a run, and examines what it leaves. Gives the last line shown, and what was left."""
    words = ["--terminals", str(TERMINALS), "--loggers", str(LOGGERS), "--count", "1000000", "--seed", str(seed)]
    last = kill_a_run(program, folder, [*tables, *words], latest)
    left = examine(program, folder, LOGGERS, tables)
    if left.commits < last.acknowledged or left.durable < last.durable:
        raise Failed(f"{last} was shown, and only {left} was recovered")
    return last, left


def goes_on_from(left, resumed):
    """Whether what a resumed run says is what was left."""
    if resumed.commits != left.commits or resumed.epoch <= left.durable:
        raise Failed(f"{left} was left, and {resumed} was said")


def resume_kill_and_examine(program, folder, tables, seed, left, long):
    """Resumes a run on what was left, kills it, and examines what it leaves. It is killed when this says, or in its
    restart. Gives what was left, and whether it was killed before it said that it was resumed."""
    words = ["--terminals", str(TERMINALS), "--loggers", str(LOGGERS), "--count", "1000000", "--seed", str(seed)]
    wait = random.choice([long, long, so_soon(1.5), grown(folder)])
    killed = kill(Run(program, folder, [*tables, *words, "--resume"]), wait)
    resumed, behind = resumed_of(killed.output)
    if behind or (killed.last and not resumed):
        raise Failed(f"it showed {killed.last} and wrote {killed.output!r}")
    if resumed:
        goes_on_from(left, resumed)
    now = examine(program, folder, LOGGERS, tables)
    acknowledged, durable = (killed.last.acknowledged, killed.last.durable) if killed.last else (0, 0)
    if now.commits < left.commits + acknowledged or now.durable < max(left.durable, durable):
        raise Failed(f"{left} was left, {killed.last} was shown, and only {now} was recovered")
    if not resumed and now.commits != left.commits:
        raise Failed(f"{left} was left, no run was resumed, and {now} was recovered")
    return now, not resumed


def resume_to_the_end(program, folder, tables, seed, left):
    """Resumes a run on what was left, which comes to its end, and examines what it leaves. Gives what was left."""
    words = ["--terminals", str(TERMINALS), "--loggers", str(LOGGERS), "--count", "100", "--seed", str(seed), "--resume"]
    words = ["tpcc", "run", "--logs", folder, *tables, *words]
    ran = subprocess.run(words, executable=program, stdin=subprocess.DEVNULL, capture_output=True, timeout=SILENT)
    if ran.returncode != 0 or ran.stderr:
        raise Failed(f"the last life ended with status {ran.returncode}: {ran.stderr!r}")
    resumed, behind = resumed_of(ran.stdout)
    if not resumed:
        raise Failed("the last life wasn't resumed")
    goes_on_from(left, resumed)
    counts = dict(line.split() for line in behind.decode().splitlines()[:6])
    now = examine(program, folder, LOGGERS, tables)
    if now != Left(int(counts["durable"]), left.commits + int(counts["commits"])):
        raise Failed(f"{left} was left, the last life told {counts}, and {now} was recovered")
    if counts["acknowledged"] != counts["commits"]:
        raise Failed(f"the last life told {counts}")
    return now


def chain(program, folder, tables, lives, long=None):
    """The lives of a database, of which each but the last is killed: the first one when this says, which is a random
    moment after its progress line was shown unless another is given. Gives what was left behind each, and how many were
    killed before they were resumed."""
    words = ["--terminals", str(TERMINALS), "--loggers", str(LOGGERS), "--count", "1000000", "--seed", "1"]
    long = long or shown_for(LATEST)
    killed = kill(Run(program, folder, [*tables, *words]), long)
    left = examine(program, folder, LOGGERS, tables)
    if killed.output or (killed.last and left.commits < killed.last.acknowledged):
        raise Failed(f"it showed {killed.last} and wrote {killed.output!r}, and {left} was recovered")
    all_left, unresumed = [left], 0
    for life in range(2, lives):
        left, so = resume_kill_and_examine(program, folder, tables, life, left, long)
        all_left.append(left)
        unresumed += so
    all_left.append(resume_to_the_end(program, folder, tables, lives, left))
    return all_left, unresumed


def main(words):
    numbers = [int(word) for word in words if word.isdigit()]
    rest = [word for word in words if not word.isdigit()]
    if len(numbers) > 2 or len(rest) > 1 or (numbers[1:] and numbers[1] < 2):
        print(__doc__, file=sys.stderr)
        return 2
    chains, lives = [*numbers, *(50, 5)[len(numbers) :]]
    program = Path(rest[0] if rest else BUILT).resolve()
    failed = in_all = unresumed = recovered = 0
    for number in range(1, chains + 1):
        folder = tempfile.mkdtemp(prefix="tpcc-kills-")
        try:
            left, early = chain(program, folder, TABLES, lives)
        except (Failed, OSError, subprocess.SubprocessError) as why:
            failed += 1
            print(f"chain {number} FAILED, its files are in {folder}: {why}", flush=True)
            continue
        shutil.rmtree(folder)
        in_all, unresumed, recovered = in_all + len(left), unresumed + early, recovered + left[-1].commits
        print(
            f"chain {number}: recovered {', '.join(str(life.commits) for life in left)} commits up to epochs"
            f" {', '.join(str(life.durable) for life in left)}; {early} killed before they were resumed; all conditions"
            " ok, replayed the same",
            flush=True,
        )
    print(
        f"{chains} chains, {failed} failed; the others had {in_all} lives, of which {unresumed} were killed before they"
        f" were resumed, and {recovered} commits"
    )
    return 1 if failed else 0


if __name__ == "__main__":
    sys.exit(main(sys.argv[1:]))
