"""Tests of the built program on what a recovery shows on a terminal."""

import os
import pty
import re
import struct
import subprocess
import tempfile
import threading
import tty

import preloaded
from checks import SECONDS, SMALL, Ran, ends, fail, run, same, shows, shows_runs, start, whole
from logs import LOGS, LONG, body, data_write, log, put_files

SIZES = [len(log) for log in LOGS]

# Where the report of the recovered tables is asked for, and where their rows are shown.
OUTPUTS = {
    "check": whole(b"", 2),
    "recover": b"durable 5\ncommits 2\nwarehouse 1 ytd 202.00\ndistrict 1 1 ytd 102.00 next 11\n"
    b"district 1 2 ytd 100.00 next 11\n",
}


def words_of(subcommand, folder, *words):
    """The words of a subcommand on the log files in this folder."""
    return [subcommand, *SMALL[1:], "--logs", folder, "--loggers", "2", *words]


def on_terminal(words, env=None, until=None):
    """Runs the program with a terminal as its standard error: what that was shown is told as what the errors got. Once
    it has what the pattern `until` finds, the program is killed."""
    terminal, end = pty.openpty()
    tty.setraw(end)
    process = start(words, stdin=subprocess.DEVNULL, stdout=subprocess.PIPE, stderr=end, env=env)
    os.close(end)
    timer = threading.Timer(SECONDS, process.kill)
    timer.start()
    shown = b""
    try:
        while piece := os.read(terminal, 65536):
            shown += piece
            if until and until.search(shown):
                process.kill()
    except OSError:  # The other end was closed.
        pass
    finally:
        os.close(terminal)
        out = process.communicate()[0]
        timer.cancel()
    return Ran(process.returncode, out, shown)


def after(read):
    """The line once so many bytes were read and no entries looked at."""
    return b"read %d of %d bytes, 0 entries" % (read, sum(SIZES))


def has_shown(what, shown, held):
    """Two checks: that this line stood on a screen until the files were whole, and that all was erased."""
    last = re.compile(rb"read %d of %d bytes, [0-5] entries *" % (sum(SIZES), sum(SIZES)))
    front, *lines, blanks, behind = shown.split(b"\r") if shown.count(b"\r") > 2 else [shown, b"", b"", b""]
    same(f"what is erased {what}", (front, blanks.strip(b" "), len(blanks) >= len(held), behind), (b"", b"", True, b""))
    same(f"whether the bytes that were read are shown {what}", lines[:1], [held])
    for line in lines:
        if line.rstrip(b" ") != held and not last.fullmatch(line):
            fail(f"a line {what} is {line!r}")


@shows
def a_long_recovery_is_shown_on_a_terminal():
    wrapper = preloaded.Wrapper()
    with tempfile.TemporaryDirectory() as folder:
        put_files(folder, LOGS)
        held = [wrapper.environment(HELD=f"{folder}/log-{logger}") for logger in (0, 1)]
        one, two = SIZES
        cases = [
            ("check", 1, 0, b"reading log-0"), ("recover", 1, 1, after(one)),
            ("recover", 2, 0, after(two)), ("check", 2, 1, after(one)),
        ]
        for subcommand, threads, slow, line in cases:
            what = f"by {subcommand} in {threads} threads where log-{slow} is slow"
            ran = on_terminal(words_of(subcommand, folder, "--threads", str(threads)), held[slow])
            ends(what, ran._replace(err=b""), 0, OUTPUTS[subcommand])
            has_shown(what, ran.err, line)
        words, output = words_of("recover", folder), OUTPUTS["recover"]
        ends("of a slow one on no terminal", run(words, env=held[0]), 0, output)
        ends("of a quick one on a terminal", on_terminal(words), 0, output)
        ends("of a slow one without threads", on_terminal(words, {**held[0], "THREADLESS": "1"}), 0, output)
    wrapper.close()


@shows
def a_line_is_cut_to_the_terminal_s_width():
    wrapper = preloaded.Wrapper()
    with tempfile.TemporaryDirectory() as folder:
        put_files(folder, LOGS)
        line = after(SIZES[0])
        # A number isn't cut: words are left out whole, and blanks stand in their place.
        cut = lambda kept: line if len(line) <= kept else line[: line.rindex(b" ", 0, kept)].ljust(kept)
        for columns, kept in (("20", 19), ("24", 23), ("19", 79), ("x", 79), ("200", 199)):
            env = {**wrapper.environment(HELD=f"{folder}/log-1"), "COLUMNS": columns}
            ran = on_terminal(words_of("recover", folder), env)
            ends(f"in {columns} columns", ran._replace(err=b""), 0, OUTPUTS["recover"])
            front, first, *others = ran.err.split(b"\r")
            same(f"the first line in {columns} columns", (front, first), (b"", cut(kept)))
            same(f"the lines that are longer in {columns} columns", [it for it in others if len(it) > kept], [])
    wrapper.close()


@shows
def bytes_of_a_file_count_as_they_are_read():
    wrapper = preloaded.Wrapper()
    with tempfile.TemporaryDirectory() as folder:
        texts = b"".join(data_write(place, b"x" * 500) for place in range(20))
        file = log(0, 1, body(5, *[struct.pack("<QQHH", n, 4 << 32, 0, 20) + texts for n in range(1, 121)]))
        # More than is read at once.
        same("whether a file has more than a MiB", 2**20 < len(file) < 2**21, True)
        put_files(folder, [file])
        words = ["recover", *SMALL[1:], "--logs", folder, "--loggers", "1"]
        alone = run(words)
        ran = on_terminal(words, wrapper.environment(HELD=f"{folder}/log-0"))
        ends("of a slow file", ran._replace(err=b""), 0, alone.out, alone.err)
        counted = [tuple(map(int, pair)) for pair in re.findall(rb"\rread (\d+) of (\d+) bytes, 0 entries", ran.err)]
        same("whether what was read is shown before all is", (2**20, len(file)) in counted, True)
    wrapper.close()


# The epoch up to which two files are durable, whose number takes ten places.
LATE = 4_000_000_000


def late(logger):
    """The file of a logger of two, at the scale of LONG."""
    text = log(logger, 2, body(LATE))
    return text[:16] + struct.pack("<6I", *map(int, LONG[1::2])) + text[40:]


WORDS_OF_A_RUN = rb"inputs \d+ commits \d+ \(\d+/s\) acknowledged \d+ epoch 4\d{9} durable 4\d{9}".split()


@shows_runs
def a_run_s_line_is_cut_to_the_terminal_s_width():
    two = re.compile(rb"(\rinputs [^\r]*){2}\r")
    for columns, kept in ((None, 79), ("200", 199)):
        env = {name: value for name, value in os.environ.items() if name != "COLUMNS"}
        with tempfile.TemporaryDirectory() as folder:
            put_files(folder, map(late, (0, 1)))
            words = ["run", "--logs", folder, *LONG, "--count", "1000000", "--resume"]
            ran = on_terminal(words, env | ({"COLUMNS": columns} if columns else {}), until=two)
        same(f"what is said first in {columns} columns", ran.out[:28], b"resumed 0 epoch %d\n" % (LATE + 1))
        lines = re.findall(rb"\r(inputs [^\r]*)(?=\r)", ran.err)
        same(f"whether there are lines in {columns} columns", len(lines) >= 2, True)
        for line in lines:
            same(f"whether {line} is cut to {kept}", (len(line) <= kept, b" durable 4" in line), (True, kept == 199))
            are_whole = all(re.fullmatch(*pair) for pair in zip(WORDS_OF_A_RUN, line.split()))
            same(f"whether {line} is of whole words", are_whole, True)


@shows_runs
def a_long_restart_is_shown_on_a_terminal():
    wrapper = preloaded.Wrapper()
    with tempfile.TemporaryDirectory() as folder:
        put_files(folder, LOGS)
        resumed = [*words_of("run", folder), "--terminals", "1", "--count", "0", "--resume"]
        ran = on_terminal(resumed, wrapper.environment(HELD=f"{folder}/log-1"))
        same("the status of a slow restart", ran.status, 0)
        same("what a slow restart says first", ran.out.partition(b"\n")[0], b"resumed 2 epoch 9")
        has_shown("by a slow restart", ran.err, after(SIZES[0]))
    wrapper.close()


@shows
def what_is_wrong_with_log_files_is_told_behind_what_was_shown():
    wrapper = preloaded.Wrapper()
    with tempfile.TemporaryDirectory() as folder:
        put_files(folder, [LOGS[0], LOGS[0]])
        env = wrapper.environment(HELD=f"{folder}/log-1")
        for subcommand in OUTPUTS:
            alone = run(words_of(subcommand, folder))
            ran = on_terminal(words_of(subcommand, folder), env)
            shown, _, told = ran.err.rpartition(b"\r")
            what = f"of {subcommand} on a file of another logger"
            ends(what, ran._replace(err=told), alone.status, alone.out, alone.err)
            line = b"\rread %d of %d bytes, 0 entries" % (SIZES[0], 2 * SIZES[0])
            same(f"whether {subcommand} has shown how far it was", shown.startswith(line), True)
    wrapper.close()
