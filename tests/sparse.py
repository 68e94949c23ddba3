"""Tests of the built program on log files behind whose text stands more than memory holds: holes, which take no blocks."""

import os
import re
import resource
import tempfile
from contextlib import contextmanager

from checks import SMALL, ends, run, same, shows, shows_runs
from hostile import HONEST, HUGE, in_little_memory
from logs import LATER, LOGS, body, entry, log, on_logs, put_files, void

# What a run of threads may take, most of it for their stacks.
MOST = 2**30


@contextmanager
def with_holes(folder):
    """Makes each file a long one, without writing what is in it."""
    for path in folder.iterdir():
        os.truncate(path, HUGE)
    yield


def in_memory_for_threads():
    resource.setrlimit(resource.RLIMIT_AS, (MOST, MOST))


def changed(text, at, byte):
    """A file with another byte at this place."""
    return text[:at] + bytes([text[at] ^ byte]) + text[at + 1 :]


# A flaw that is told of the first file, whatever stands behind its text: in its header, in a body, in a void one, in a
# gate. Of a body that the file's end cuts short the end is told, which a hole moves.
FLAWED = [
    *[[changed(LOGS[0], at, 1), LATER] for at in (0, 7, 8, 12, 14, 16, 20, 24, 28, 32, 36, 40)],
    *[[changed(LOGS[0], at, 255), LATER] for at in (49, 65, 73, 81, 83, 85, 90, 100, 150, 200)],
    [log(0, 2, body(5, entry(1, 4, 0)), void(0, 8)), LATER],
    [log(0, 2, body(5, entry(1, 4, 0)), void(9, 8)), LATER],
    [log(0, 2, body(5, entry(1, 4, 0)), void(6, 8, length=24)), LATER],
    [log(0, 2, body(5, entry(1, 4, 0))), LOGS[0]],
]


@shows
def what_stands_behind_the_text_of_log_files_is_left_aside():
    for subcommand in ("recover", "check"):
        for what, files in (("one file", [HONEST]), ("two files", LOGS)):
            alone = on_logs(subcommand, files)
            same(f"the errors of {subcommand} of {what}", alone.err, b"")
            ran = on_logs(subcommand, files, within=with_holes, before=in_little_memory)
            ends(f"of {subcommand} of {what} with holes", ran, alone.status, alone.out)


@shows
def the_same_flaw_is_told_whatever_stands_behind_a_text():
    for subcommand in ("recover", "check"):
        for n, files in enumerate(FLAWED):
            alone = on_logs(subcommand, files)
            same(f"the status of {subcommand} of flaw {n}", alone.status, 1)
            ran = on_logs(subcommand, files, within=with_holes, before=in_little_memory)
            ends(f"of {subcommand} of flaw {n} with holes", ran, 1, alone.out, alone.err)


RESUMED = [*SMALL[1:], "--terminals", "1", "--count", "0", "--resume"]


@shows_runs
def a_run_goes_on_where_the_text_ends():
    alone = on_logs("run", LOGS, scale=RESUMED)
    ran = on_logs("run", LOGS, scale=RESUMED, within=with_holes, before=in_memory_for_threads)
    ends("of a run that goes on with holes", ran, alone.status, ran.out, alone.err)
    # The durable epoch goes by the clock.
    told = [re.sub(rb"\ndurable \d+\n", b"\n", it.out) for it in (ran, alone)]
    same("the output of a run that goes on with holes", told[0], told[1])
    same("what it says first", ran.out.partition(b"\n")[0], b"resumed 2 epoch 9")
    for n in (0, 12, -1):
        alone = on_logs("run", FLAWED[n], scale=RESUMED)
        ran = on_logs("run", FLAWED[n], scale=RESUMED, within=with_holes, before=in_memory_for_threads)
        ends(f"of a run on flaw {n} with holes", ran, 1, alone.out, alone.err)


@shows_runs
def what_a_run_writes_stands_behind_the_text():
    told = []
    for size in (None, HUGE):
        with tempfile.TemporaryDirectory() as folder:
            put_files(folder, LOGS)
            for logger in (0, 1):
                if size:
                    os.truncate(f"{folder}/log-{logger}", size)
            files = ["--logs", folder, "--loggers", "2"]
            run(["run", *RESUMED[:-2], "20", "--resume", "--seed", "7", *files], before=in_memory_for_threads)
            told.append(run(["recover", *SMALL[1:], *files], before=in_little_memory))
    same("the statuses of recover behind both", [ran.status for ran in told], [0, 0])
    # The durable epoch goes by the clock.
    tables = [ran.out.partition(b"\n")[2] for ran in told]
    same("what a run leaves that wrote in a hole", tables[1], tables[0])
