"""Tests of runs that begin in a folder where something stands, and of several that begin at once."""

import subprocess
import tempfile
from pathlib import Path

import kills
import preloaded
from checks import Checks, ends, same, shows_runs, start
from logs import LOGS, SCALE, TWO, contents_of, run_in
from starting import EMPTY, at_each_call, goes_on

NOT_LEFT = b"9 Device\nDIR/%s: is there, and isn't what a start that was killed leaves\n"


def begun():
    """The two log files of a run that begins: their headers, and closed gates."""
    with tempfile.TemporaryDirectory() as folder:
        run_in(folder, *EMPTY)
        return [text[:48] + bytes(1) for _, text in sorted(contents_of(folder).items())]


def put(folder, files):
    for name, text in files.items():
        (Path(folder) / name).write_bytes(text)


@shows_runs
def a_log_file_without_the_first_keeps_what_a_start_left():
    one, two = begun()
    files = {"log-0.new": one, "log-1": two}
    with tempfile.TemporaryDirectory() as folder:
        put(folder, files)
        ends("of a run beside it", run_in(folder, *EMPTY), 1, err=b"9 Device\nDIR/log-1: is there without log-0\n")
        same("what files there are", contents_of(folder), files)
        goes_on("beside it", folder)


@shows_runs
def what_no_start_has_left_is_left_alone():
    for name, text in (("log-0.new", LOGS[0]), ("log-1.new", bytes(50))):
        with tempfile.TemporaryDirectory() as folder:
            put(folder, {name: text})
            ends(f"of a run beside {name}", run_in(folder, *EMPTY), 1, err=NOT_LEFT % name.encode())
            same(f"what files there are beside {name}", contents_of(folder), {name: text})
    with tempfile.TemporaryDirectory() as folder:
        put(folder, {"log-3.new": LOGS[0], "log-4.new": LOGS[0][:49]})
        same("the status beside one of another logger", run_in(folder, *EMPTY).status, 0)
        same("what files there are then", sorted(contents_of(folder)), ["log-0", "log-1", "log-3.new"])
    with tempfile.TemporaryDirectory() as folder:
        put(folder, {"mine": b"mine"})
        (Path(folder) / "log-0.new").symlink_to("mine")
        ends("of a run beside a link", run_in(folder, *EMPTY), 1, err=NOT_LEFT % b"log-0.new")
        same("what the link leads to", (Path(folder) / "mine").read_bytes(), b"mine")
    with tempfile.TemporaryDirectory() as folder:
        (Path(folder) / "log-1.new").mkdir()
        ends("of a run beside a folder", run_in(folder, *EMPTY), 1, err=NOT_LEFT % b"log-1.new")
        same("what files there are beside a folder", [it.name for it in Path(folder).iterdir()], ["log-1.new"])


@shows_runs
def of_runs_that_begin_at_once_one_works():
    words = [*SCALE, *TWO, "--count", "20"]
    for left in ({}, {"log-0.new": b"SILO", "log-1.new": b""}):
        with tempfile.TemporaryDirectory() as folder:
            put(folder, left)
            quiet = {"stdin": subprocess.DEVNULL, "stdout": subprocess.DEVNULL, "stderr": subprocess.DEVNULL}
            started = [start(["run", "--logs", folder, *words], **quiet) for _ in range(8)]
            ended = sorted(process.wait() for process in started)
            same(f"how eight end beside {sorted(left)}", ended, [0, *[1] * 7])
            same(f"what files there are then beside {sorted(left)}", sorted(contents_of(folder)), ["log-0", "log-1"])
            same("whether there are commits", kills.examine(Checks.program, folder, 2, SCALE).commits > 0, True)


# What a start leaves that was killed between its names, and one that was killed behind them.
KILLED = [lambda one, two: {"log-0": one, "log-1.new": two}, lambda one, two: {"log-0": one, "log-1": two}]


@shows_runs
def names_are_durable_before_a_run_goes_on():
    wrapper = preloaded.Wrapper()
    for left in KILLED:
        files = left(*begun())
        told = []

        def judge(what, ran, folder):
            told.append(ran.err)
            same(f"the status {what}", ran.status, 1)
            goes_on(what, folder)

        at_each_call(wrapper, {"SYNC": 0}, judge, *EMPTY, "--resume", files=files)
        err = b"9 Device\nDIR/: can't be synced: Input/output error (os error 5)\n"
        same(f"whether the names of {sorted(files)} are synced", err in told, True)
    files = KILLED[0](*begun())
    at_each_call(wrapper, {"RENAME": 0}, lambda what, ran, folder: goes_on(what, folder), *EMPTY, "--resume", files=files)
    wrapper.close()


@shows_runs
def a_start_that_is_refused_behind_its_names_can_be_broken_off():
    wrapper = preloaded.Wrapper()
    judge = lambda what, ran, folder: goes_on(what, folder)
    # The fourth sync is that of the folder once both files have their names: they get their first ones back.
    for kind, count in (("RENAME", 4), ("UNLINK", 2)):
        for killed in (False, True):
            calls = at_each_call(wrapper, {"SYNC": 4, kind: 0}, judge, *EMPTY, killed=killed)
            same(f"at how many calls of {kind} it was broken off, {killed=}", calls, count)
    wrapper.close()
