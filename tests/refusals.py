#!/usr/bin/env python3
"""Tests of want of memory: a program is run again and again, and of the growths of memory that it asks for another one
is refused each time, from the first on, until none is.

    python3 tests/refusals.py [PROGRAM [CALLS]]

PROGRAM is crates/tpcc/out/tpcc where none is named, and CALLS crates/tests_refusals/out/tests_refusals, which calls the
library without a command line: `rt ci` leaves both there. Prints a line for each program and what came of its growths,
one for each check that failed, and at last `N passed, M failed`; exits with 1 where one failed.
"""

import itertools
import re
import subprocess
import sys
import tempfile
from collections import Counter
from pathlib import Path

sys.dont_write_bytecode = True
sys.path.insert(0, str(Path(__file__).resolve().parent.parent / "examples"))
import kills
import preloaded
from checks import SHOWN, SMALL, TOP, Checks, Ran, brief, fail, run, same, shows, whole
from logs import COUNTED, LOGS, SCALE, TWO, Counts, body, contents_of, inputs_of, log, payment, put_files

CALLS = TOP / "crates" / "tests_refusals" / "out" / "tests_refusals"

OUT_OF_MEMORY = b"1 OutOfMemory\n"

# What is told where the words can't be read, and where they can't be understood.
WORDS = [b"error: the command line can't be read: out of memory\n", b"error: out of memory\n"]


class Programs:
    """The wrapper that refuses growths, and the program that calls the library."""

    wrapper = None
    calls = CALLS


def sweep(what, words, kind_of, program=None, given=b"", among=None):
    """Runs a program with each of its growths refused in turn. `kind_of` gets what came of it, and answers what that is
    called, or None where it may not come. Where more is to be done before and behind a run, `among` does it: it gets a
    function that runs the program with more words, and gives what came of that."""
    kinds = Counter()
    for growth in itertools.count(1):
        env, story = Programs.wrapper.failing(GROWTH=growth)

        def go(*more):
            return run([*words, *more], given, program=program, env=env)

        try:
            ran = among(go) if among else go()
            kind, came = kind_of(ran), brief(tuple(ran))
        except kills.Failed as error:
            kind, came = None, f"{error}"
        if kind:
            Checks.passed += 1
        else:
            fail(f"what came of {what} with growth {growth} refused is {came}")
        if not preloaded.has_failed(story):
            break
        kinds[kind or "wrong"] += 1
    told = ", ".join(f"{count} {kind}" for kind, count in sorted(kinds.items()))
    print(f"{what}: {kinds.total()} growths: {told}", flush=True)
    return kinds


# ---- Calls of the library

# Two New-Orders in a script, at the scale of SMALL.
ORDERS = b"neworder 1 1 3 1:1:10 2:1:10 3:1:10 4:1:10 5:1:10\nneworder 1 1 4 1:1:1 1:1:1 1:1:1 1:1:1 1:1:1\n"

ANSWERS = whole(
    b"neworder 1 1 11 customer 3 lines 150.00 total 155.25 1:1:40:10.00 2:1:40:20.00 3:1:40:30.00 4:1:40:40.00"
    b" 5:1:40:50.00\nneworder 1 1 12 customer 4 lines 5.00 total 5.17 1:1:39:1.00 1:1:38:1.00 1:1:37:1.00 1:1:36:1.00"
    b" 1:1:35:1.00\n",
    2,
)


def kind_among(text, refusals):
    """The kinds of what comes where a text is to be written: all of it, or a beginning and a refusal."""

    def kind_of(ran):
        if ran == Ran(0, text, b""):
            return "whole"
        if ran.status == 1 and text.startswith(ran.out) and ran.err in refusals:
            return f"{ran.err[:1].decode()} behind {'some' if ran.out else 'nothing'}"
        return None

    return kind_of


@shows
def a_script_is_answered_or_refused():
    # The writer is memory too, and refuses as a device.
    kinds = sweep("script", ["script"], kind_among(ANSWERS, [OUT_OF_MEMORY, b"9 Device\n"]), Programs.calls)
    same("whether growths of a script are refused", kinds["1 behind nothing"] > 50, True)
    same("whether the writer's are", kinds["9 behind nothing"] > 0, True)


RECOVERED = b"durable 5\ncommits 2\nytd 202.00\nbalances -11.00 -10.00\n"


@shows
def two_files_are_recovered_or_refused():
    # The disks are memory too. Words: in one thread, and in two.
    for word in ["recover", "threads"]:
        kinds = sweep(word, [word], kind_among(RECOVERED, [OUT_OF_MEMORY, b"9 Device\n"]), Programs.calls)
        same(f"whether growths of a recovery by {word} are refused", kinds["1 behind nothing"] > 50, True)


@shows
def a_run_is_refused_before_any_input():
    # A refusal drops the engine, so only what stands in the log file tells whether any input ran.
    kinds_of = {b"all inputs ran\n": "run", b"no input ran\n": "refused before any input"}

    def kind_of(ran):
        if ran == Ran(1, b"", OUT_OF_MEMORY):
            return "at the start"
        return kinds_of.get(ran.out) if not ran.status and not ran.err else None

    kinds = sweep("run", ["run"], kind_of, Programs.calls)
    same("whether growths before inputs are refused", kinds["refused before any input"] > 10, True)
    same("whether those of inputs are", kinds["run"] > 20, True)


# Ten customers have paid 1.00, each in an epoch of its own, and three batches were appended.
PAID = [payment(n, n, 0, customer=n, cents=100, date=1, before=100 * (n - 1)) for n in range(1, 11)]
FILE = log(0, 1, body(4, *PAID[:4]), body(7, *PAID[4:7]), body(10, *PAID[7:]))


@shows
def a_refused_call_gives_the_same_when_it_is_made_again():
    told = run(["life"], program=Programs.calls)
    same("the status of a life", told.status, 0)
    same("the errors of a life", told.err, b"")
    same("whether its inputs have committed", b"40 committed, all good: true\n" in told.out, True)
    same("the file that its customers leave", told.out[-len(FILE) :], FILE)

    def kind_of(ran):
        if ran == Ran(1, b"", OUT_OF_MEMORY):
            return "at the start"
        if ran == told:
            return "without a call that was refused"
        if ran == told._replace(err=b"1 made again, 0 with a change\n"):
            return "made again"
        return None

    kinds = sweep("life", ["life"], kind_of, Programs.calls)
    same("whether calls are made again", kinds["made again"] > 200, True)


# ---- The program

# What is told behind a refusal's line of how much memory is taken.
MEMORY = re.compile(rb"some \d+ MB for these options(: a lower --[a-z]+ takes the least|, and more for what the log files hold)?\n")


def without_memory(ran):
    """What came of a run, without the line on how much memory is taken, for which memory may be there or not."""
    begins = ran.err.startswith(OUT_OF_MEMORY) and MEMORY.fullmatch(ran.err, len(OUT_OF_MEMORY))
    return ran._replace(err=OUT_OF_MEMORY) if begins else ran


def kind_of_words(ran):
    """What comes where the words have no memory."""
    return "at the words" if ran.status == 2 and not ran.out and ran.err in WORDS else None


@shows
def the_program_answers_or_refuses():
    with tempfile.TemporaryDirectory() as folder:
        put_files(folder, LOGS)
        logs = [*SMALL[1:], "--logs", folder, "--loggers", "2"]
        shown = (
            b"durable 5\ncommits 2\nwarehouse 1 ytd 202.00\ndistrict 1 1 ytd 102.00 next 11\n"
            b"district 1 2 ytd 100.00 next 11\n"
        )
        for what, words, given, text in [
            ("tpcc script", SMALL, ORDERS, ANSWERS),
            ("tpcc recover", ["recover", *logs], b"", shown),
            ("tpcc recover in two threads", ["recover", *logs, "--threads", "2"], b"", shown),
            ("tpcc check", ["check", *logs], b"", whole(b"", 2)),
        ]:
            kind_of_answer = kind_among(text, [OUT_OF_MEMORY])
            kinds = sweep(what, words, lambda ran: kind_of_words(ran) or kind_of_answer(without_memory(ran)), given=given)
            same(f"whether growths of {what} are refused", kinds["1 behind nothing"] > 50, True)
        same("the files once they are read", contents_of(folder), {f"log-{n}": text for n, text in enumerate(LOGS)})


def recovered(folder, scale):
    """The durable epoch and the number of commits that two files recover to."""
    ran = run(["recover", *scale, "--logs", folder, "--loggers", "2"])
    match = re.match(rb"durable (\d+)\ncommits (\d+)\n", ran.out)
    if ran.status != 0 or not match:
        raise kills.Failed(f"recover gives {brief(tuple(ran))}")
    return tuple(map(int, match.groups()))


def sweep_runs(what, words, inputs, scale=SCALE, files=(), first=b""):
    """Runs two terminals and two loggers with each growth refused in turn, in a folder with these files. What is told
    begins with what the pattern `first` says. Whatever came of it, the files recover to no less than before, and to all
    that was acknowledged, up to the epoch that was durable."""
    told = re.compile(first + COUNTED.pattern)

    def counts_of(output):
        match = told.fullmatch(output)
        return match and Counts(*map(int, match.groups()[-len(Counts._fields) :]))

    def among(go):
        with tempfile.TemporaryDirectory() as folder:
            put_files(folder, files)
            least = recovered(folder, scale) if files else (0, 0)
            ran = go("--logs", folder)
            made = contents_of(folder)
            # A start that is refused leaves nothing; what is refused behind the inputs leaves their files.
            if made and (sorted(made) != ["log-0", "log-1"] or not files and min(map(len, made.values())) <= 49):
                raise kills.Failed(f"the files {sorted(made)} are left by {brief(tuple(ran))}")
            if made:
                left = recovered(folder, scale)
                if counts := counts_of(ran.out):
                    least = max(least[0], counts.durable), least[1] + counts.acknowledged
                if left[0] < least[0] or left[1] < least[1]:
                    raise kills.Failed(f"{left} is recovered, epoch and commits, where {least} is the least")
            return ran

    def kind_of(ran):
        counts = counts_of(ran.out)
        if ran.status == 0 and not ran.err and counts and inputs_of(counts) == inputs:
            # What is refused of a logger's turn is tried again, that of the last one too.
            if counts.acknowledged < counts.commits:
                return None
            return f"told, {counts.refused} refused" if counts.refused <= 1 else None
        if ran.status == 1 and without_memory(ran).err == OUT_OF_MEMORY and re.fullmatch(b"(%s)?" % first, ran.out):
            return f"1 behind {'some' if ran.out else 'nothing'}"
        return kind_of_words(ran)

    return sweep(what, ["run", *scale, *TWO, *words], kind_of, among=among)


@shows
def runs_of_terminals_are_told_or_refused():
    kinds = sweep_runs("tpcc run", ["--count", "20"], 40)
    same("whether growths of a run are refused", kinds["1 behind nothing"] > 50, True)
    same("whether those of inputs are", kinds["told, 1 refused"] > 50, True)


@shows
def runs_that_go_on_are_told_or_refused():
    # Two commits are durable, and epochs 6 to 8 are given up.
    words, first = ["--resume", "--count", "20"], rb"resumed 2 epoch 9\n"
    kinds = sweep_runs("tpcc run --resume", words, 40, scale=SMALL[1:], files=LOGS, first=first)
    same("whether growths of a run that goes on are refused", kinds["1 behind nothing"] > 50, True)


def main():
    if len(sys.argv) > 1:
        Checks.program = Path(sys.argv[1]).resolve()
    if len(sys.argv) > 2:
        Programs.calls = Path(sys.argv[2]).resolve()
    Programs.wrapper = preloaded.Wrapper()
    for function in SHOWN:
        Checks.showing = function.__name__
        try:
            function()
        except (OSError, subprocess.SubprocessError, kills.Failed) as error:
            fail(f"{error}")
    Programs.wrapper.close()
    print(f"{Checks.passed} passed, {Checks.failed} failed")
    return 1 if Checks.failed else 0


if __name__ == "__main__":
    sys.exit(main())
