"""Tests of what the start of a run leaves, and of what stands in log files where a call of the system fails, the process is
killed at one, or a standard stream is closed."""

import fcntl
import itertools
import os
import re
import resource
import tempfile
from pathlib import Path

import kills
import preloaded
from checks import SMALL, Checks, brief, ends, fail, run, same, shows_runs
from logs import (
    LATEST_EPOCH, LOGS, LONG, SCALE, TWO, body, contents_of, counts_of, entry, log, put_files, run_in,
)
from screens import on_terminal

# ---- Closed streams

STREAMS = [(0,), (1,), (2,), (0, 1, 2)]

# The options with which LOGS were made.
OF_LOGS = [*SMALL[1:], "--loggers", "2"]


def closed(streams):
    """What closes standard streams in a new process."""

    def close():
        for stream in streams:
            os.close(stream)

    return close


@shows_runs
def closed_streams_leave_log_files_alone():
    for streams in STREAMS:
        for subcommand, options in (("recover", OF_LOGS), ("check", OF_LOGS), ("info", [])):
            with tempfile.TemporaryDirectory() as folder:
                put_files(folder, LOGS)
                ran = run([subcommand, "--logs", folder, *options], before=closed(streams))
                same(f"what {subcommand} leaves without streams {streams}", contents_of(folder), dict(zip(("log-0", "log-1"), LOGS)))
                same(f"the status of {subcommand} without streams {streams}", ran.status, int(1 in streams))


@shows_runs
def closed_streams_take_nothing_of_a_run():
    words = [*SCALE, "--terminals", "1", "--loggers", "2", "--count", "200"]
    with tempfile.TemporaryDirectory() as folder:
        commits = counts_of(run_in(folder, *words).out).commits
    for streams in STREAMS:
        with tempfile.TemporaryDirectory() as folder:
            run_in(folder, *words, before=closed(streams))
            left = kills.examine(Checks.program, folder, 2, SCALE)
            same(f"the commits of a run without streams {streams}", left.commits, commits)
            run_in(folder, *words, "--resume", "--seed", "2", before=closed(streams))
            more = kills.examine(Checks.program, folder, 2, SCALE).commits > commits
            # Where what was recovered can't be told, no input runs.
            same(f"whether a run goes on without streams {streams}", more, 1 not in streams)


@shows_runs
def nothing_has_the_descriptor_of_a_closed_stream():
    wrapper = preloaded.Wrapper()
    kinds = [
        ("run", [*OF_LOGS, "--count", "3"]), ("run", [*OF_LOGS, "--count", "3", "--resume", "--seed", "2"]),
        ("recover", OF_LOGS), ("check", OF_LOGS), ("info", []),
    ]
    for streams in STREAMS:
        with tempfile.TemporaryDirectory() as folder:
            for subcommand, options in kinds:
                with tempfile.NamedTemporaryFile() as notes:
                    env = wrapper.environment(STORY=notes.name)
                    run([subcommand, "--logs", folder, *options], before=closed(streams), env=env)
                    taken = {path for what, path in preloaded.lines_of(notes.name) if what == "b"}
                    same(f"what has one of {streams} of {subcommand}", taken, set())
    wrapper.close()


# ---- Starts that are refused or killed

EMPTY = [*SCALE, *TWO, "--count", "0"]

# The calls of a start, at each of which one fails.
CALLS = [{"OPEN": 0}, {"LOCK": 0}, {"WRITE": 0}, {"WRITE": 0, "HALF": 1}, {"SYNC": 0}, {"RENAME": 0}]

# One that only asks what there is, of which a failure may be one of what is asked for.
ASKING = {"STAT": 0}

# What a killed start may leave.
LEFT = {"log-0.new": LOGS[0][:30], "log-1.new": b""}


def failing_at(wrapper, names, call, killed):
    """The environment of a program of whose calls of the kind that is 0 here this one fails, or is where it is killed;
    a file to hand to `has_failed`; and the kind."""
    kind = next(name for name, value in names.items() if not value)
    chosen = {name: value or call for name, value in names.items()}
    return *wrapper.failing(**chosen, **({"KILL": kind} if killed else {})), kind


def at_each_call(wrapper, names, judge, *words, files=(), killed=False):
    """Runs terminals in a folder of these files, with the first, the second .. call of a kind failing, or the process
    killed there, until there is none. Gives how many there were."""
    for call in itertools.count(1):
        env, story, kind = failing_at(wrapper, names, call, killed)
        with tempfile.TemporaryDirectory() as folder:
            for name, text in dict(files).items():
                (Path(folder) / name).write_bytes(text)
            ran = run_in(folder, *words, env=env)
            if not preloaded.has_failed(story, kind):
                return call - 1
            judge(f"with {names} at {call}{', killed' if killed else ''}", ran, folder)


def goes_on(what, folder):
    """Checks that the next run works in a folder: a new one, where no log file is there, or else one that goes on."""
    are_there = any(re.fullmatch(r"log-\d", name) for name in contents_of(folder))
    ran = run_in(folder, *EMPTY, *(["--resume"] if are_there else []))
    same(f"how the next run ends {what}", (ran.status, ran.err), (0, b""))
    same(f"what files there are then {what}", sorted(contents_of(folder)), ["log-0", "log-1"])
    same(f"what is left then {what}", kills.examine(Checks.program, folder, 2, SCALE).commits, 0)


def is_refused_cleanly(what, ran, folder):
    """Checks of a run of no inputs in which a call has failed: where nothing was written, it has left nothing."""
    same(f"the status {what}", ran.status, 1)
    if not ran.err.startswith(b"9 Device\nDIR/"):
        fail(f"the errors {what} are {brief(ran.err)}")
    if not ran.out:
        same(f"what files there are {what}", contents_of(folder), {})
    goes_on(what, folder)


@shows_runs
def a_start_that_is_refused_leaves_nothing():
    wrapper = preloaded.Wrapper()
    for names in CALLS:
        calls = at_each_call(wrapper, names, is_refused_cleanly, *EMPTY)
        same(f"whether so many calls have failed of {names}", calls >= 2, True)
    # Where a file can't be taken over, it is left as it is for the next run.
    for names in [*CALLS, ASKING, {"CUT": 0}]:
        judge = lambda what, ran, folder: goes_on(what, folder)
        calls = at_each_call(wrapper, names, judge, *EMPTY, files=LEFT)
        same(f"whether so many calls have failed of {names} behind a killed start", calls >= 2, True)
    wrapper.close()


@shows_runs
def what_a_refused_start_can_not_remove_is_taken_over():
    wrapper = preloaded.Wrapper()
    judge = lambda what, ran, folder: goes_on(what, folder)
    for killed in (False, True):
        # The second file's sync, before the files have their names.
        calls = at_each_call(wrapper, {"SYNC": 2, "UNLINK": 0}, judge, *EMPTY, killed=killed)
        same("how many are removed", calls, 2)
    # What a killed start of more loggers left: it can stay.
    others = {"log-4.new": b"", "log-6.new": b"SILO"}

    def stays(what, ran, folder):
        same(f"the status {what}", ran.status, 0)
        same(f"how many stay {what}", len(contents_of(folder).keys() & others.keys()), 1)

    same("how many stay", at_each_call(wrapper, {"UNLINK": 0}, stays, *EMPTY, files=others), 2)
    same("how many kill", at_each_call(wrapper, {"UNLINK": 0}, judge, *EMPTY, files=others, killed=True), 2)
    wrapper.close()


def is_killed(what, ran, folder):
    """Checks of a run of no inputs that was killed at a call."""
    same(f"the status {what}", ran.status, -9)
    names = [name for name in contents_of(folder) if re.fullmatch(r"log-\d", name)]
    for name in names:
        same(f"whether {name} has a header {what}", len(contents_of(folder)[name]) >= 49, True)
    if len(names) == 1:
        ran = run_in(folder, *EMPTY)
        text = b"9 Device\nDIR/log-0: can't be created, and the file that is there is left as it is"
        same(f"whether another run is refused {what}", (ran.status, ran.err[: len(text)]), (1, text))
    goes_on(what, folder)


@shows_runs
def a_start_that_is_killed_is_taken_up():
    wrapper = preloaded.Wrapper()
    for files in ({}, LEFT):
        for names in [*CALLS, ASKING, *([{"CUT": 0}] if files else [])]:
            calls = at_each_call(wrapper, names, is_killed, *EMPTY, files=files, killed=True)
            same(f"whether it was killed at so many of {names}", calls >= 2, True)
    wrapper.close()


def between_names():
    """What a start leaves that is killed between its names."""
    with tempfile.TemporaryDirectory() as folder:
        run_in(folder, *EMPTY)
        fronts = [text[:48] + b"\0" for _, text in sorted(contents_of(folder).items())]
    return dict(zip(("log-0", "log-1.new"), fronts))


@shows_runs
def a_start_that_was_killed_between_its_names_is_ended():
    wrapper = preloaded.Wrapper()
    files = between_names()
    judge = lambda what, ran, folder: goes_on(what, folder)
    for names in [*CALLS, ASKING, {"READ": 0}]:
        for killed in (False, True):
            calls = at_each_call(wrapper, names, judge, *EMPTY, "--resume", files=files, killed=killed)
            same(f"whether there are such calls of {names}", calls >= 1, True)
    wrapper.close()


@shows_runs
def files_are_whole_before_they_have_their_names():
    wrapper = preloaded.Wrapper()
    with tempfile.TemporaryDirectory() as folder, tempfile.NamedTemporaryFile() as notes:
        ran = run_in(folder, *EMPTY, env=wrapper.environment(STORY=notes.name))
        same("the status", ran.status, 0)
        lines = [f"{what} {path.replace(folder, 'DIR')}" for what, path in preloaded.lines_of(notes.name)]
        made = [f"{what} DIR/log-{logger}.new" for logger in (0, 1) for what in "ws"]
        same("what is done first", lines[:8], [*made, "s DIR", "r DIR/log-0", "r DIR/log-1", "s DIR"])
    wrapper.close()


@shows_runs
def a_resumed_run_that_fails_or_is_killed_keeps_what_was_recovered():
    wrapper = preloaded.Wrapper()
    words = [*SCALE, *TWO, "--count", "50", "--resume", "--seed", "2"]
    with tempfile.TemporaryDirectory() as folder:
        before = counts_of(run_in(folder, *SCALE, *TWO, "--count", "50").out)
        files = contents_of(folder)

    def keeps(what, ran, folder):
        left = kills.examine(Checks.program, folder, 2, SCALE)
        told = counts_of(ran.out.partition(b"\n")[2]).acknowledged if ran.out.count(b"\n") > 1 else 0
        same(f"whether all is kept {what}", left.commits >= before.commits + told, True)
        ran = run_in(folder, *words)
        same(f"how the next one ends {what}", (ran.status, ran.err), (0, b""))

    for names in [{"READ": 0}, ASKING, *CALLS[:-1]]:
        for killed in (False, True):
            calls = at_each_call(wrapper, names, keeps, *words, files=files, killed=killed)
            same(f"whether so many calls are of {names}", calls >= 2, True)
    wrapper.close()


@shows_runs
def reading_that_fails_or_is_killed_changes_no_file():
    wrapper = preloaded.Wrapper()
    for subcommand, names, killed in itertools.product(
        ("recover", "check"), ({"OPEN": 0}, {"LOCK": 0}, {"READ": 0}, ASKING), (False, True)
    ):
        for call in itertools.count(1):
            env, story, kind = failing_at(wrapper, names, call, killed)
            with tempfile.TemporaryDirectory() as folder:
                put_files(folder, LOGS)
                ran = run([subcommand, "--logs", folder, *OF_LOGS], env=env)
                if not preloaded.has_failed(story, kind):
                    break
                what = f"of {subcommand} with {names} at {call}{', killed' if killed else ''}"
                same(f"the status {what}", ran.status, -9 if killed else 1)
                same(f"the files {what}", contents_of(folder), dict(zip(("log-0", "log-1"), LOGS)))
        same(f"whether there are such calls of {subcommand}, {names}", call >= 3, True)
    wrapper.close()


@shows_runs
def files_that_can_not_be_written_are_read():
    wrapper = preloaded.Wrapper()
    with tempfile.TemporaryDirectory() as folder:
        put_files(folder, LOGS)
        for subcommand in ("recover", "check"):
            words = [subcommand, *SMALL[1:], "--logs", folder, "--loggers", "2"]
            same(f"what {subcommand} tells", run(words, env=wrapper.environment(READONLY="1")), run(words))
        ran = run_in(folder, *SMALL[1:], *TWO, "--resume", env=wrapper.environment(READONLY="1"))
        text = b"9 Device\nDIR/log-0: can't be opened: Read-only file system (os error 30)\n"
        ends("of a run that goes on with them", ran, 1, err=text)
    wrapper.close()


@shows_runs
def files_of_others_are_left_alone():
    words = [*SCALE, *TWO]
    with tempfile.TemporaryDirectory() as folder:
        (Path(folder) / "log-1").write_bytes(b"mine")
        ends("beside a second file", run_in(folder, *words), 1, err=b"9 Device\nDIR/log-1: is there without log-0\n")
        same("what files there are", contents_of(folder), {"log-1": b"mine"})
    with tempfile.TemporaryDirectory() as folder:
        # What a killed start of more loggers left, one name of which is a link to somebody's file.
        (Path(folder) / "log-0.new").write_bytes(b"SILOTPCC")
        (Path(folder) / "log-3.new").touch()
        ran = run_in(folder, *words)
        same("how a run over what a killed start left ends", (ran.status, ran.err), (0, b""))
        same("what files there are of it", sorted(contents_of(folder)), ["log-0", "log-1"])
    with tempfile.TemporaryDirectory() as folder:
        (Path(folder) / "mine").write_bytes(b"mine")
        (Path(folder) / "log-0.new").symlink_to("mine")
        same("the status beside a link", run_in(folder, *words).status, 1)
        same("what the link leads to", (Path(folder) / "mine").read_bytes(), b"mine")


def locked(folder, name, text):
    """A file of a folder that this process has locked."""
    file = open(Path(folder) / name, "w+b", buffering=0)
    file.write(text)
    fcntl.flock(file, fcntl.LOCK_EX)
    return file


@shows_runs
def what_another_start_is_making_is_left_alone():
    for logger in (0, 1):
        name = f"log-{logger}.new"
        with tempfile.TemporaryDirectory() as folder, locked(folder, name, b"SILO"):
            err = b"9 Device\nDIR/%s: in use by another process\n" % name.encode()
            ends(f"where {name} is locked", run_in(folder, *EMPTY), 1, err=err)
            same(f"the files where {name} is locked", contents_of(folder), {name: b"SILO"})
    with tempfile.TemporaryDirectory() as folder, locked(folder, "log-3.new", b"SILO"):
        same("the status where another logger's is locked", run_in(folder, *EMPTY).status, 0)
        files = contents_of(folder)
        same("the files then", (sorted(files), files["log-3.new"]), (["log-0", "log-1", "log-3.new"], b"SILO"))


@shows_runs
def a_start_without_descriptors_leaves_nothing():
    refused = 0
    for descriptors in range(3, 12):
        limit = lambda: resource.setrlimit(resource.RLIMIT_NOFILE, (descriptors, descriptors))
        with tempfile.TemporaryDirectory() as folder:
            ran = run_in(folder, *EMPTY, before=limit)
            if ran.status:
                same(f"what files there are with {descriptors} descriptors", contents_of(folder), {})
                refused += 1
            else:
                same(f"the errors with {descriptors} descriptors", ran.err, b"")
    same("whether some were refused, and some not", 0 < refused < 9, True)


# ---- Commits that aren't durable

UNLOGGED = re.compile(rb"1 OutOfMemory\nDIR/log-[01]: no memory was left for its last batch: (\d+) commits aren't durable\n")


def limited(kilobytes):
    """What limits the memory of a new process."""
    return lambda: resource.setrlimit(resource.RLIMIT_AS, (kilobytes * 1024,) * 2)


@shows_runs
def commits_that_are_not_durable_for_want_of_memory_are_told():
    seen = 0
    for kilobytes in range(40_000, 100_000, 4_000):
        with tempfile.TemporaryDirectory() as folder:
            ran = run_in(folder, "--count", "4000", before=limited(kilobytes))
            if not ran.out:
                same(f"what is left in {kilobytes} kB", contents_of(folder), {})
                continue
            counts = counts_of(ran.out)
            lost = counts.commits - counts.acknowledged
            told = UNLOGGED.fullmatch(ran.err)
            wanted = (1, lost) if lost else (0, None)
            same(f"what is told in {kilobytes} kB", (ran.status, int(told[1]) if told else None), wanted)
            seen += lost > 0
    same("whether a run was short of memory", seen > 0, True)


@shows_runs
def commits_of_the_last_epoch_are_told():
    files = [log(0, 2, body(LATEST_EPOCH - 1, entry(1, 4, 0))), log(1, 2, body(LATEST_EPOCH - 1))]
    with tempfile.TemporaryDirectory() as folder:
        put_files(folder, files)
        ran = run_in(folder, *SMALL[1:], *TWO, "--count", "10", "--resume")
        head, _, rest = ran.out.partition(b"\n")
        same("what is recovered", head, b"resumed 1 epoch %d" % LATEST_EPOCH)
        counts = counts_of(rest)
        same("what is acknowledged", counts.acknowledged, 0)
        text = b"8 EpochFull\nDIR/log-0: epoch 4294967295 is the last one, and is never durable: %d commits of it are lost\n"
        same("how it ends", (ran.status, ran.err), (1, text % counts.commits))


ALARM = rb"\r9 Device: .*/log-[01]: can't be written: Input/output error \(os error 5\); " \
    rb"replies are durable up to epoch (\d+) *\n"


@shows_runs
def a_file_that_can_not_be_written_is_told_at_once_on_a_terminal():
    wrapper = preloaded.Wrapper()
    for call in (5, 12):
        env, story = wrapper.failing(WRITE=call)
        with tempfile.TemporaryDirectory() as folder:
            ran = on_terminal(["run", "--logs", folder, *SCALE, *TWO, "--count", "20000"], env)
            alarm = re.match(ALARM, ran.err)
            same(f"whether write {call} failed", preloaded.has_failed(story), True)
            if not alarm:
                fail(f"a terminal was shown {brief(ran.err)}")
                continue
            told = b"9 Device\n%s/log-" % folder.encode()
            # A run of more than a second, as beside other work, tells how far it is before its end.
            end = re.sub(rb"(?:\rinputs [^\r\n]*)+\r[^\r\n]*\n", b"", ran.err[alarm.end() :], count=1)
            same("what is told at the end", end[: len(told)], told)
            same("the status", ran.status, 1)
    wrapper.close()


# The line on the file stands before others on how far the run is, and there is a word on it at the end.
TOLD = re.compile(
    rb"(?:\rinputs [^\r\n]*)*" + ALARM + rb"(?:\rinputs [^\r\n]*)+"
    rb"\r(\d+\.\d) s, (\d+) acknowledged commits/s, [^\r\n]*\n"
    rb"9 Device\n.*: can't be written: Input/output error \(os error 5\)\n"
)


@shows_runs
def a_run_whose_logger_stopped_tells_how_many_commits_are_acknowledged_a_second():
    wrapper = preloaded.Wrapper()
    # How many inputs are a long run, goes by the machine.
    for inputs in (40_000, 200_000, 1_000_000):
        env, story = wrapper.failing(WRITE=40, COLUMNS=200)
        with story, tempfile.TemporaryDirectory() as folder:
            ran = on_terminal(["run", "--logs", folder, *LONG, "--count", str(inputs)], env)
        if told := TOLD.fullmatch(ran.err):
            break
    wrapper.close()
    if not told:
        return fail(f"a terminal was shown {brief(ran.err)}")
    same("the status", ran.status, 1)
    counts, seconds, rate = counts_of(ran.out), float(told[2]), int(told[3])
    same("whether some commits aren't acknowledged", counts.acknowledged < counts.commits, True)
    same("whether what is told to be durable is", int(told[1]) <= counts.durable, True)
    least, most = (counts.acknowledged / (seconds + off) for off in (0.1, 0))
    same(f"whether {rate} of {counts.acknowledged} is the rate", least <= rate + 1 and rate <= most, True)


@shows_runs
def a_long_start_says_what_it_does_on_a_terminal():
    for orders, says in ((12_000, True), (3_000, False)):
        scale = f"--warehouses 2 --orders {orders} --terminals 1 --count 1".split()
        with tempfile.TemporaryDirectory() as folder:
            ran = on_terminal(["run", "--logs", folder, *scale])
            same("the status", ran.status, 0)
            front = rb"\rmaking records *\r(?s:.*) commits/s, .*\n" if says else rb"(?!\rmaking)(?s:.*)"
            if not re.fullmatch(front, ran.err):
                fail(f"a terminal was shown {brief(ran.err)} of an order cap of {orders}")
