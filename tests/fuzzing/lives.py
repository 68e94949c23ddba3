"""Runs that are killed at random moments, recovered and gone on with, in chains of lives."""

import signal
import time
from collections import Counter, namedtuple
from pathlib import Path

import kills
from fuzzing.answers import REPORT
from fuzzing.bodies import HEADER_BYTES
from fuzzing.cases import SECONDS, Differs, brief, room, run, same
from fuzzing.verdicts import Asked, Left, examine, options, words_of

KIND, GROUP = "kills", 1

INPUTS = 1_000_000

# How long a run is halted so that it shows a progress line as soon as it goes on: they come a second after its start.
HALT = 1.1


def asked_for(draws):
    """A small scale, with a commit cap that keeps a replay short."""
    customers = draws.randint(10, 60)
    scale = (
        draws.choice((1, 1, 2, 3)),
        draws.randint(1, 10),
        customers,
        draws.choice((20, 100, 1_000)),
        customers + draws.choice((10, 300, 1_500)),
        draws.choice((60, 1_000, 4_000, 8_000)),
    )
    return Asked(scale, draws.randint(1, 4), 0)


# ---- The moments at which a run is killed


def sizes(folder):
    return [path.stat().st_size for path in sorted(Path(folder).glob("log-?"))]


def at_once(draws, folder):
    """A random moment soon after a run's start, also before there are files."""
    return lambda run: run.watch(draws.uniform(0, 0.05))


def behind_growth(draws, folder):
    """A moment soon after log files grow: those that are there, or behind their headers."""
    latest = draws.choice((0, 0.002, 0.05, 0.2))

    def wait(run):
        before, until = sizes(folder), time.monotonic() + SECONDS
        while not run.ended and time.monotonic() < until:
            now = sizes(folder)
            if now != before and max(now, default=0) > HEADER_BYTES + 1:
                break
            run.watch(0.0002)
        run.watch(draws.uniform(0, latest))

    return wait


def behind_progress(draws, folder):
    """A moment soon after a progress line was shown, which tells what was acknowledged. The run is halted soon after
    its start, and goes on when such a line is due, so that few commits are there by then."""
    first, latest = draws.uniform(0, 0.02), draws.choice((0, 0.01, 0.1))

    def wait(run):
        behind_growth(draws, folder)(run)
        run.watch(first)
        run.process.send_signal(signal.SIGSTOP)
        time.sleep(HALT)
        run.process.send_signal(signal.SIGCONT)
        until = time.monotonic() + SECONDS
        while not kills.progress_of(kills.without_recovery(run.shown))[0] and not run.ended:
            if time.monotonic() > until:
                raise Differs(f"it shows no progress: {brief(run.shown)}")
            run.watch(0.01)
        run.watch(draws.uniform(0, latest))

    return wait


MOMENTS = at_once, behind_growth, behind_growth, behind_progress, behind_progress


# ---- Lives


def words_of_life(draws, asked, count):
    """The words of a run, but for its folder, with terminals and a seed of its own."""
    inputs = ["--terminals", draws.randint(1, 8), "--seed", draws.randrange(2**32), "--count", count]
    return [str(word) for word in (*options(asked), *inputs)]


# What was seen of a life: whether it was killed, the last progress line, the epoch and commits that it went on from
# (None where it didn't say), and what it wrote behind that.
Seen = namedtuple("Seen", "killed last resumed written")


def live(programs, draws, asked, folder, resume):
    """A life that is killed, unless it ends before that, at its commit cap."""
    run = kills.Run(programs.tpcc, folder, [*words_of_life(draws, asked, INPUTS), *resume])
    try:
        draws.choice(MOMENTS)(draws, folder)(run)
    finally:
        status, output = run.kill()
    if status not in (0, -signal.SIGKILL):
        raise Differs(f"a run ended with status {status}, showed {brief(run.shown)} and wrote {brief(output)}")
    lines, _ = kills.progress_of(kills.without_recovery(run.shown))
    resumed, written = kills.resumed_of(output) if resume else (None, output)
    return Seen(status != 0, lines[-1] if lines else None, resumed, written)


def end(programs, draws, asked, folder):
    """A life that goes on and comes to its end."""
    words = words_of_life(draws, asked, draws.choice((0, 1, 50)))
    ran = run(programs.tpcc, "run", "--logs", folder, *words, "--resume")
    same("the status of the last life", ran.status, 0)
    same("what standard error gets of the last life", ran.err, b"")
    resumed, written = kills.resumed_of(ran.out)
    return Seen(False, None, resumed, written)


def told(seen):
    """How many commits and acknowledgements a life told, and up to which epoch commits are durable."""
    if seen.killed:
        same("what a killed run wrote", seen.written, b"")
        return (0, 0, 0) if not seen.last else (seen.last.acknowledged, seen.last.acknowledged, seen.last.durable)
    counts = dict(line.split() for line in seen.written.splitlines()[:6])
    same("the report of a run", b"".join(seen.written.splitlines(keepends=True)[6:]), REPORT)
    commits, acknowledged, durable = (int(counts[name]) for name in (b"commits", b"acknowledged", b"durable"))
    same("how many replies were given", acknowledged, commits)
    return commits, acknowledged, durable


def judge(seen, left, now):
    """Whether what a life left is what it said, and what was there before."""
    commits, acknowledged, durable = told(seen)
    before = left or Left(0, 0, 0)
    if left and seen.resumed and tuple(seen.resumed) != (left.commits, left.top + 1):
        raise Differs(f"{left} was left, and {seen.resumed} was said")
    if now.durable < max(durable, before.durable):
        raise Differs(f"{left} was left, {seen} was seen, and {now} was recovered")
    least = before.commits + acknowledged
    is_exact = not seen.killed or (left and not seen.resumed)
    if now.commits < least or (is_exact and now.commits != before.commits + commits):
        raise Differs(f"{left} was left, {seen} was seen, and {now} was recovered")


def never_begun(programs, asked, folder, verdict):
    """Files that a life was killed in the midst of making: nobody goes on with them, by the same refusal."""
    ran = run(programs.tpcc, "run", *words_of(asked, folder), "--resume")
    same("what standard error gets of a run on no files", ran.err, verdict.error)
    same("the output of a run on no files", ran.out, b"")
    same("the status of a run on no files", ran.status, 1)
    return Counter(chains=1, lives=1, unfinished=1)


def chain(programs, draws, asked, folder):
    """The lives of a database, of which all but the last are killed. Gives what is to be counted."""
    left, counts = None, Counter(chains=1)
    lives = draws.randint(2, 6)
    for life in range(1, lives + 1):
        if life == lives:
            seen = end(programs, draws, asked, folder)
        else:
            seen = live(programs, draws, asked, folder, ["--resume"] if left else [])
        verdict = examine(programs.tpcc, folder, asked, draws.choice((1, 2, 4)))
        if verdict.left is None and left is None and not seen.last and seen.killed:
            return never_begun(programs, asked, folder, verdict)
        same("what standard error gets behind a life", verdict.error, b"")
        same("the report behind a life", verdict.check, b"commits %d\n" % verdict.left.commits + REPORT)
        same("a text of C_DATA that is another", verdict.other_text, None)
        judge(seen, left, verdict.left)
        counts += Counter(lives=1, shown=int(seen.last is not None), resumed=int(seen.resumed is not None))
        left = verdict.left
    return counts + Counter(commits=left.commits)


def case(programs, draws, number, seed):
    asked = asked_for(draws)
    with room(KIND) as folder:
        (folder / "words").write_text(" ".join(map(str, words_of(asked, folder))) + "\n")
        try:
            return chain(programs, draws, asked, folder)
        except kills.Failed as why:
            raise Differs(str(why)) from why
