"""Log files of runs, and damage to them: what `tpcc recover` and `tpcc check` say of them."""

import re
from collections import Counter
from functools import lru_cache
from pathlib import Path

from fuzzing import mutations
from fuzzing.answers import REPORT
from fuzzing.bodies import OLD, TODAY, in_version, log_of
from fuzzing.cases import Differs, brief, draws_of, room, run, same
from fuzzing.verdicts import Asked, examine, verdict, words_of

KIND, GROUP = "files", 25


def scale_of(draws):
    customers = draws.randint(10, 14)
    return (
        draws.choice((1, 1, 2)),
        draws.randint(1, 3),
        customers,
        draws.randint(20, 30),
        customers + draws.randint(0, 60),
        draws.choice((draws.randint(1, 60), 400)),
    )


def written(folder, count):
    return [(Path(folder) / f"log-{logger}").read_bytes() for logger in range(count)]


def lose_bodies(draws, folder, loggers):
    """Takes the last bodies of a file away, as a machine's crash may. The next life gives their epochs up."""
    path = Path(folder) / f"log-{draws.randrange(loggers)}"
    log = log_of(path.read_bytes())
    del log.bodies[draws.randint(0, len(log.bodies)) :]
    path.write_bytes(log.text())


def lives(programs, draws, asked):
    """The log files that the lives of a database leave, of which some lose bodies between them."""
    with room(KIND) as folder:
        for life in range(draws.choice((1, 1, 2, 3))):
            if life and draws.random() < 0.7:
                lose_bodies(draws, folder, asked.loggers)
            inputs = ["--terminals", draws.randint(1, 4), "--count", draws.randint(0, draws.choice((20, 60)))]
            words = [*words_of(asked, folder), *inputs, "--seed", draws.randrange(2**32)]
            ran = run(programs.tpcc, "run", *words, *(["--resume"] if life else []))
            if ran.status or ran.err:
                raise Differs(f"run {life + 1}, {words}, ended with status {ran.status}: {brief(ran.err)}")
        if not asked.population:
            same("a text of C_DATA that is another", verdict(folder, asked).other_text, None)
        return written(folder, asked.loggers)


@lru_cache(maxsize=2)
def origins(programs, seed, group):
    """What is damaged in a group of cases: what is asked, its files, and files of other databases like it; all in one
    version."""
    draws = draws_of(seed, "origins", group)
    asked = Asked(scale_of(draws), draws.choice((1, 2, 2, 3, 8)), 0)
    scale, loggers, _ = asked
    wider = (scale[0], scale[1], scale[2], scale[3] + 1, *scale[4:])
    others = [Asked(scale, loggers, 7), Asked(wider, loggers, 0), Asked(scale, loggers % 8 + 1, 0)]
    files, first_files = lives(programs, draws, asked), [lives(programs, draws, other)[0] for other in others]
    version = draws.choice((OLD, TODAY, TODAY))
    return asked, *[[in_version(text, version) for text in texts] for texts in (files, first_files)]


def asked_for(draws, asked):
    """What a command line asks for: mostly what the files are of."""
    scale, loggers, _ = asked
    place = draws.randrange(len(scale))
    near = (*scale[:place], scale[place] + 1, *scale[place + 1 :])
    if draws.random() < 0.95:
        return asked
    return draws.choice((Asked(near, loggers, 0), Asked(scale, loggers % 8 + 1, 0), Asked(scale, loggers, 7)))


def put(folder, files):
    folder.mkdir(exist_ok=True)
    for logger, text in enumerate(files):
        if text is not None:
            (folder / f"log-{logger}").write_bytes(text)


UNSOUND = b"10 Damaged\nwhat the log files recover to no commits can have made: `tpcc check` tells more\n"

BEYOND = re.compile(b"10 Damaged\n[WDCS]_[A-Z_]+ of [a-z]+( [0-9]+)+ is beyond what ([0-9]+) commits can make\n")

EPOCH_FULL, LAST_EPOCH = b"8 EpochFull\n", 2**32 - 1


def contents(folder):
    return {path.name: path.read_bytes() for path in folder.glob("log-*")}


def resume(tpcc, folder, asked):
    """Goes on with log files, which are to be of today's version, without an input. A refusal writes nothing, and is
    that of their verdict; or, of files that can be recovered, one of two more. Where all conditions hold, 10 is taken
    for right: a run asks more of what is recovered than they do, and may tell a column that is out of reach."""
    before, (_, _, status, error, left, _) = contents(folder), verdict(folder, asked, TODAY)
    ran = run(tpcc, "run", *words_of(asked, folder), "--terminals", 1, "--count", 0, "--resume")
    if left and not status and left.top < LAST_EPOCH and ran.status == 0:
        same("what standard error gets of run", ran.err, b"")
        same("what run says first", ran.out.split(b"\n")[0], b"resumed %d epoch %d" % (left.commits, left.top + 1))
        same("the report of run", ran.out[-len(REPORT) :], REPORT)
        same("what is left of the commits", examine(tpcc, folder, asked).left.commits, left.commits)
        return "resumed"
    same("the status of run", ran.status, 1)
    same("the output of run", ran.out, b"")
    same("the files of a run that was refused", contents(folder), before)
    if not left:
        same("what standard error gets of run", ran.err, error)
        return "refused"
    if not status and left.top != LAST_EPOCH and (beyond := BEYOND.fullmatch(ran.err)):
        same("the commits that are told", int(beyond[2]), left.commits)
        return "refused by 10 for a column"
    same("what standard error gets of run", ran.err, EPOCH_FULL if left.top == LAST_EPOCH else UNSOUND)
    return "refused by 10" if ran.err == UNSOUND else "refused by 8"


def case(programs, draws, number, seed):
    """Damage to the log files of a group."""
    asked, files, others = origins(programs, seed, (number - 1) // GROUP)
    damaged = mutations.damaged(draws, files, others)
    asks, threads = asked_for(draws, asked), draws.choice((1, 1, 2, 8))
    with room(KIND) as folder:
        put(folder, damaged)
        put(folder / "whole", files)
        told = " ".join(map(str, words_of(asks, folder)))
        (folder / "words").write_text(f"recover {told} --threads {threads}\n")
        wanted = examine(programs.tpcc, folder, asks, threads)
        counts = Counter({"databases": 1, told_of(wanted): 1})
        counts += Counter({"with another text": int(wanted.other_text is not None)})
        if draws.random() < 0.3:
            put(folder / "damaged", damaged)
            counts[resume(programs.tpcc, folder, asks)] += 1
    return counts


def told_of(wanted):
    """What kind of answer a verdict is."""
    if wanted.error:
        return wanted.error.split()[1].decode()
    return "broken" if wanted.status else "good"
