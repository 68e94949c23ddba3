"""Tests of the built program in which a call of the system fails: a write or a sync of a run, also of one that goes on,
the start of a thread of a run or a recovery."""

import itertools
import re
import tempfile

import kills
import preloaded
from checks import SMALL, Checks, brief, ends, fail, same, shows, shows_runs
from logs import EIGHT, LOGS, SCALE, TWO, counts_of, inputs_of, on_logs, put_files, run_in

# What is told: which file, and what it couldn't be.
FAULT = re.compile(rb"9 Device\nDIR/(log-[01])?: can't be (written|synced): Input/output error \(os error 5\)\n")

INPUTS = 200

WORDS = [*SCALE, *TWO, "--count", str(INPUTS // 2)]


def with_one_failing(wrapper, judge, words=WORDS, files=(), **names):
    """Runs terminals, in a folder of these files, with the first, the second .. call of a kind failing, until there is
    none that does. `judge` gets what came of each, and the folder. Gives how many have failed."""
    for call in itertools.count(1):
        env, story = wrapper.failing(**{name: value or call for name, value in names.items()})
        with tempfile.TemporaryDirectory() as folder:
            put_files(folder, files)
            ran = run_in(folder, *words, env=env)
            if not preloaded.has_failed(story):
                return call - 1
            judge(f"with {names} at {call}", ran, folder)


def is_told_and_recovered(what, ran, folder):
    """Checks of a run in which a call of a device has failed. Where its files had been made, all its inputs are counted,
    and what it acknowledged is recovered."""
    same(f"the status {what}", ran.status, 1)
    if not FAULT.fullmatch(ran.err):
        fail(f"the errors {what} are {brief(ran.err)}")
    if not ran.out:
        return
    counts = counts_of(ran.out)
    same(f"the number of inputs {what}", inputs_of(counts), INPUTS)
    left = kills.examine(Checks.program, folder, 2, SCALE)
    same(f"whether it is durable as it says {what}", left.durable >= counts.durable, True)
    is_kept = counts.acknowledged <= left.commits <= counts.commits
    same(f"whether it keeps what is acknowledged {what}", is_kept, True)


@shows_runs
def a_write_or_a_sync_that_fails_loses_nothing_that_is_acknowledged():
    wrapper = preloaded.Wrapper()
    for names in [{"WRITE": 0}, {"WRITE": 0, "HALF": 1}, {"SYNC": 0}]:
        calls = with_one_failing(wrapper, is_told_and_recovered, **names)
        # Two headers; of each file at least one body with its gate.
        same(f"whether so many have failed of {names}", calls >= 6, True)
    wrapper.close()


# A run that goes on behind the two commits of LOGS, where its restart first declares epochs void in both files.
RESUMED = [*SMALL[1:], *TWO, "--count", "10", "--resume"]


def is_told_and_gone_on_with(what, ran, folder):
    """Checks of such a run in which a call of a device has failed, as `is_told_and_recovered`, and that another one goes
    on with what it leaves."""
    same(f"the status {what}", ran.status, 1)
    if not FAULT.fullmatch(ran.err):
        fail(f"the errors {what} are {brief(ran.err)}")
    resumed, behind = kills.resumed_of(ran.out)
    left = kills.examine(Checks.program, folder, 2, SMALL[1:])
    least = most = 2
    if resumed:
        counts = counts_of(behind)
        same(f"what is said first {what}", resumed, kills.Resumed(2, 9))
        same(f"the number of inputs {what}", inputs_of(counts), 20)
        same(f"whether it is durable as it says {what}", left.durable >= counts.durable, True)
        least, most = 2 + counts.acknowledged, 2 + counts.commits
    same(f"whether it keeps what is acknowledged {what}", least <= left.commits <= most, True)
    kills.resume_to_the_end(Checks.program, folder, SMALL[1:], 2, left)


@shows_runs
def a_resumed_run_that_fails_is_gone_on_with():
    wrapper = preloaded.Wrapper()
    for names in [{"WRITE": 0}, {"WRITE": 0, "HALF": 1}, {"SYNC": 0}]:
        calls = with_one_failing(wrapper, is_told_and_gone_on_with, RESUMED, LOGS, **names)
        # Of each file the void body with its gate, and at least one body with its gate.
        same(f"whether so many have failed of {names}", calls >= 8, True)
    wrapper.close()


def is_as_ever(what, ran, folder):
    """Checks of a run that has ended well."""
    counts = counts_of(ran.out)
    same(f"how it ends {what}", (ran.status, ran.err), (0, b""))
    same(f"the number of inputs {what}", inputs_of(counts), INPUTS)
    same(f"what is acknowledged {what}", counts.acknowledged, counts.commits)
    left = kills.examine(Checks.program, folder, 2, SCALE)
    same(f"what is left {what}", left, kills.Left(counts.durable, counts.commits))


@shows_runs
def a_thread_that_can_not_be_started_changes_no_answer():
    wrapper = preloaded.Wrapper()
    threads = with_one_failing(wrapper, is_as_ever, THREAD=0)
    same("whether so many weren't started", threads >= 3, True)
    env = wrapper.environment(THREADLESS="1")
    with tempfile.TemporaryDirectory() as folder:
        ran = run_in(folder, *WORDS, env=env)
        is_as_ever("where none is started", ran, folder)
    wrapper.close()


def with_threads_failing(wrapper, subcommand, files, threads):
    """What comes of a subcommand where the first, the second .. of its threads can't be started, and where none can."""
    scale = [*SMALL[1:], "--threads", str(threads)]
    came = []
    for call in itertools.count(1):
        env, story = wrapper.failing(THREAD=call)
        ran = on_logs(subcommand, files, scale=scale, env=env)
        if not preloaded.has_failed(story):
            break
        came.append(ran)
    env = wrapper.environment(THREADLESS="1")
    return [*came, on_logs(subcommand, files, scale=scale, env=env)]


@shows
def files_are_recovered_alike_where_a_thread_can_not_be_started():
    wrapper = preloaded.Wrapper()
    # Files are read in threads, and what they say is merged in as many, where they are log files.
    kinds = [("two files", LOGS, 2), ("eight files", EIGHT, 2), ("damaged files", [b""] * 8, 1)]
    for subcommand, (what, files, passes) in itertools.product(("recover", "check"), kinds):
        alone = on_logs(subcommand, files)
        for threads in range(2, 9):
            came = with_threads_failing(wrapper, subcommand, files, threads)
            started = passes * (min(threads, len(files)) - 1)
            same(f"how many threads {subcommand} of {what} starts for {threads}", len(came) - 1, started)
            for ran in came:
                ends(f"of {subcommand} of {what} where one of {threads} threads isn't started", ran, *alone)
    wrapper.close()
