"""A case of the fuzzer: what it is drawn from, where its files stand, and how a difference is told."""

import random
import shutil
import subprocess
import tempfile
from collections import namedtuple
from contextlib import contextmanager
from pathlib import Path

# How long one run of a program may take, with room for a slow machine.
SECONDS = 60

# The programs that a case runs: the one that is tried, and the yardstick.
Programs = namedtuple("Programs", "tpcc yardstick")

Ran = namedtuple("Ran", "status out err")


class Differs(Exception):
    """What the program did otherwise than it is to."""


def draws_of(seed, kind, number):
    """What a case is drawn from: the same for the same three."""
    return random.Random(f"{seed} {kind} {number}")


@contextmanager
def room(kind):
    """A folder for the files of a case. It stays where the case ends by a difference, and the exception tells it."""
    folder = Path(tempfile.mkdtemp(prefix=f"tpcc-fuzz-{kind}-"))
    try:
        yield folder
    except (Differs, subprocess.TimeoutExpired) as why:
        (folder / "difference").write_text(f"{why}\n")
        why.folder = folder
        raise
    except BaseException:
        shutil.rmtree(folder)
        raise
    shutil.rmtree(folder)


def run(program, *words, stdin=subprocess.DEVNULL, **how):
    """Runs a program to its end. Its own name is tpcc, wherever it lies."""
    words = ["tpcc", *map(str, words)]
    ran = subprocess.run(words, executable=program, stdin=stdin, capture_output=True, timeout=SECONDS, **how)
    return Ran(ran.returncode, ran.stdout, ran.stderr)


def brief(value):
    text = repr(value)
    return text if len(text) <= 300 else f"{text[:150]} .. {text[-150:]}"


def same(what, found, wanted):
    """That what a program gave is what is wanted of it."""
    if found != wanted:
        raise Differs(f"{what} is {brief(found)}, and not {brief(wanted)}" + first_difference(found, wanted))


def first_difference(found, wanted):
    """The first line in which two texts differ, to be told behind them."""
    if not (isinstance(found, bytes) and isinstance(wanted, bytes)):
        return ""
    pairs = list(zip(found.split(b"\n"), wanted.split(b"\n")))
    number = next((number for number, (one, other) in enumerate(pairs, 1) if one != other), None)
    if number is None:
        return ": one has more lines"
    one, other = pairs[number - 1]
    return f": line {number} is {brief(one)}, and not {brief(other)}"


def options_of(names, numbers):
    """The words of options with these numbers."""
    return [word for name, number in zip(names, numbers) for word in (f"--{name}", str(number))]
