"""Checks of the built program as a process: how they are counted, and how it is run."""

import subprocess
import tempfile
from collections import namedtuple
from pathlib import Path

TOP = Path(__file__).resolve().parent.parent

BUILT = TOP / "crates" / "tpcc" / "out" / "tpcc"

# How long a run may take, with room for a slow machine.
SECONDS = 60

SHOWN = []


def shows(function):
    """Marks a function that shows what its name says."""
    SHOWN.append(function)
    return function


# Those of the subcommand `run`, which are left out of a program that doesn't have it.
RUNS = []


def shows_runs(function):
    """Marks one of these."""
    RUNS.append(function)
    return function


class Checks:
    """What was checked: the program, the function that is checking, and how many checks passed and failed."""

    program = BUILT
    showing = ""
    passed = 0
    failed = 0


def fail(text):
    Checks.failed += 1
    print(f"FAILED {Checks.showing}: {text}", flush=True)


def brief(value):
    text = repr(value)
    return text if len(text) <= 400 else f"{text[:200]} .. {text[-200:]}"


def same(what, seen, wanted):
    """One check: that what was seen is what was wanted."""
    if seen == wanted:
        Checks.passed += 1
    else:
        fail(f"{what} is {brief(seen)}, and not {brief(wanted)}")


# ---- The program as a process

Ran = namedtuple("Ran", "status out err")


def start(args, *, program=None, **how):
    """Starts the program, or another one, on these words, which are text or bytes. Its own name is tpcc, wherever it
    lies."""
    return subprocess.Popen(["tpcc", *args], executable=program or Checks.program, **how)


def run(args, input=b"", *, program=None, stdin=None, stdout=subprocess.PIPE, before=None, env=None, seconds=SECONDS):
    """Runs the program, or another one, on these words to its end. Its input is these bytes, or what `stdin` is; its
    output is given back, or goes where `stdout` says; `before` is called in the new process."""
    with tempfile.TemporaryFile() as given:
        given.write(input)
        given.seek(0)
        process = start(
            args,
            program=program,
            stdin=given if stdin is None else stdin,
            stdout=stdout,
            stderr=subprocess.PIPE,
            preexec_fn=before,
            env=env,
        )
        try:
            out, err = process.communicate(timeout=seconds)
        except subprocess.TimeoutExpired:
            process.kill()
            process.communicate()
            raise
    return Ran(process.returncode, out or b"", err)


def ends(what, ran, status, out=b"", err=b""):
    """Three checks: how a run ended, and what its streams got."""
    same(f"the status {what}", ran.status, status)
    same(f"the output {what}", ran.out, out)
    same(f"the errors {what}", ran.err, err)


# ---- What scripts and log files share

SMALL = "script --warehouses 1 --districts 2 --customers 10 --items 20 --orders 30 --commits 1000".split()

REPORT = b"C1 ok\nC2 ok\nC3 ok\nC4 ok\nC5 ok\nC6 ok\nC7 ok\nC8 ok\nC9 ok\nC10 ok\nC12 ok\n"


def whole(answers, commits):
    """What a script writes where every condition holds."""
    return answers + b"commits %d\n" % commits + REPORT
