"""Tests of the built program on files and folders that can't be used, and of what it makes durable."""

import fcntl
import itertools
import os
import struct
import subprocess
import tempfile
import time
from contextlib import contextmanager
from pathlib import Path

import preloaded
from checks import SECONDS, SMALL, Checks, ends, run, same, shows, shows_runs, start, whole
from logs import LOGS, LONG, SCALE, TWO, body, contents_of, counts_of, log, on_logs, put_files, run_in

IN_USE = b"9 Device\nDIR/log-%d: in use by another process\n"

# A thing to be done in a folder of log files.


def locked(name, kind):
    """While another process, this one, has a lock on a file of the folder."""

    @contextmanager
    def within(folder):
        with open(folder / name, "rb") as file:
            fcntl.flock(file, kind)
            yield

    return within


@contextmanager
def first_is_a_folder(folder):
    (folder / "log-0").unlink()
    (folder / "log-0").mkdir()
    yield


# ---- Files that are read


@shows
def files_that_can_not_be_opened_are_told():
    for subcommand in ("recover", "check"):
        text = b"9 Device\nDIR/log-%d: can't be opened: No such file or directory (os error 2)\n"
        two_of_three = [log(logger, 3, body(5)) for logger in (0, 1)]
        ends(f"of {subcommand} without a file", on_logs(subcommand, two_of_three, loggers=3), 1, err=text % 2)
        ends(f"of {subcommand} without the second", on_logs(subcommand, [b""], loggers=2), 1, err=text % 1)
        text = b"9 Device\nDIR/log-0: can't be read: Is a directory (os error 21)\n"
        ends(f"of {subcommand} on a folder", on_logs(subcommand, LOGS, within=first_is_a_folder), 1, err=text)


@shows
def files_are_shared_by_processes_that_read_them():
    for name in ("log-0", "log-1"):
        ran = on_logs("check", LOGS, within=locked(name, fcntl.LOCK_SH))
        ends(f"of check where another process reads {name}", ran, 0, whole(b"", 2))
        for subcommand in ("recover", "check"):
            ran = on_logs(subcommand, LOGS, within=locked(name, fcntl.LOCK_EX))
            ends(f"of {subcommand} where another process has {name}", ran, 1, err=IN_USE % int(name[-1]))


# ---- Files that are made


@shows_runs
def files_that_can_not_be_made_are_told():
    words = [*SCALE, *TWO]
    with tempfile.TemporaryDirectory() as folder:
        (Path(folder) / "file").touch()
        ran = run_in(folder + "/file", *words)
        text = b"9 Device\nDIR/log-0: can't be created: Not a directory (os error 20)\n"
        ends("in a file", ran, 1, err=text)
        (Path(folder) / "log-0").mkdir()
        ran = run_in(folder, *words)
        text = b"9 Device\nDIR/log-0: can't be created, and the file that is there is left as it is (--resume goes on with it): "
        ends("with a folder in a file's place", ran, 1, err=text + b"File exists (os error 17)\n")
    # To who may do everything, no folder is closed.
    if os.geteuid() != 0:
        with tempfile.TemporaryDirectory() as folder:
            os.chmod(folder, 0o500)
            text = b"9 Device\nDIR/log-0: can't be created: Permission denied (os error 13)\n"
            ends("in a folder that is closed", run_in(folder, *words), 1, err=text)


def is_free(path):
    """Whether this process could have a file for itself."""
    with open(path, "rb") as file:
        try:
            fcntl.flock(file, fcntl.LOCK_EX | fcntl.LOCK_NB)
        except BlockingIOError:
            return False
    return True


@shows_runs
def files_belong_to_the_run_that_makes_them():
    with tempfile.TemporaryDirectory() as folder:
        words = ["run", "--logs", folder, *LONG, "--count", "1000000"]
        process = start(words, stdin=subprocess.DEVNULL, stdout=subprocess.DEVNULL, stderr=subprocess.DEVNULL)
        try:
            logs, until = [Path(folder) / f"log-{n}" for n in (0, 1)], time.monotonic() + SECONDS
            while not (logs[1].exists() and logs[1].stat().st_size > 10_000) and time.monotonic() < until:
                time.sleep(0.05)
            same("whether the files are free while it runs", [is_free(log) for log in logs], [False, False])
            for subcommand in ("recover", "check"):
                words = [subcommand, "--logs", folder, "--loggers", "2", *LONG]
                ended = subprocess.run(["tpcc", *words], executable=Checks.program, capture_output=True)
                text = (IN_USE % 0).replace(b"DIR", folder.encode())
                same(f"the errors of {subcommand} while it runs", ended.stderr, text)
        finally:
            process.kill()
            process.communicate()
        same("whether the files are free once it is killed", [is_free(log) for log in logs], [True, True])


# ---- Calls that fail, and what is durable


def bodies_in(log):
    """How many bodies a log file has."""
    at, bodies = 48, 0
    while log[at] == 1:
        at += 9 + struct.unpack_from("<Q", log, at + 1)[0] - 1
        bodies += 1
    return bodies


@shows_runs
def each_turn_of_a_logger_is_synced():
    wrapper = preloaded.Wrapper()
    with tempfile.TemporaryDirectory() as folder, tempfile.NamedTemporaryFile() as notes:
        ran = run_in(folder, *SCALE, *TWO, "--count", "500", env=wrapper.environment(STORY=notes.name))
        ends("of a run whose syncs are counted", ran, 0, ran.out)
        same("what is acknowledged of it", counts_of(ran.out).acknowledged, counts_of(ran.out).commits)
        logs = contents_of(folder)
        same("whether its folder is synced", "s" in preloaded.story_of(notes.name, folder), True)
        for name in ("log-0", "log-1"):
            turns = bodies_in(logs[name])
            same(f"whether there are turns in {name}", turns >= 1, True)
            # The header is synced once it is written, and of each turn its body and then its gate.
            same(f"whether the header of {name} is synced", preloaded.story_of(notes.name, f"{folder}/{name}.new"), "ws")
            story = preloaded.story_of(notes.name, f"{folder}/{name}")
            same(f"whether each turn in {name} is synced", story.count("ws") >= 2 * turns, True)
            same(f"whether the last write to {name} is synced", story[-1:], "s")
    wrapper.close()


@shows_runs
def calls_that_fail_are_told():
    wrapper = preloaded.Wrapper()
    reason = b"Input/output error (os error 5)\n"
    syncs = [
        ("", b"9 Device\nDIR/: can't be synced: " + reason),
        ("/log-0.new", b"9 Device\nDIR/log-0: can't be written: " + reason),
        ("/log-1.new", b"9 Device\nDIR/log-1: can't be written: " + reason),
    ]
    for path, text in syncs:
        with tempfile.TemporaryDirectory() as folder:
            ran = run_in(folder, *SCALE, *TWO, env=wrapper.environment(UNSYNCED=folder + path))
            ends(f"where DIR{path} can't be synced", ran, 1, err=text)
    for subcommand, name, threads in itertools.product(("recover", "check"), ("log-0", "log-1"), ("1", "2", "8")):
        with tempfile.TemporaryDirectory() as folder:
            put_files(folder, LOGS)
            words = [subcommand, *SMALL[1:], "--logs", folder, "--loggers", "2", "--threads", threads]
            ran = run(words, env=wrapper.environment(UNREAD=f"{folder}/{name}"))
            text = b"9 Device\n%s/%s: can't be read: " % (folder.encode(), name.encode())
            what = f"of {subcommand} in {threads} threads where {name} can't be read"
            ends(what, ran, 1, err=text + reason)
    wrapper.close()
