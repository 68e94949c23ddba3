"""What `tpcc recover` and `tpcc check` are to say of log files, by a replay of them and by the conditions."""

from collections import namedtuple
from pathlib import Path

import replay
import scripts
from fuzzing import conditions
from fuzzing.bodies import HEADER_BYTES, TODAY
from fuzzing.cases import options_of, run, same
from fuzzing.damage import Flaw, examined

# What a command line asks for: the numbers of a scale, how many loggers, and a population.
Asked = namedtuple("Asked", "scale loggers population")

# The tables whose writes are looked at.
WANTED = *conditions.WANTED, replay.DATA

# What each subcommand is to write and to end with; what was recovered, or None; and what is to be said of the first
# text of C_DATA that isn't what its Payment leaves, or None.
Verdict = namedtuple("Verdict", "recover check status error left other_text")

# The durable epoch, how many commits count, and the last epoch of which the files have anything, 0 where there is none.
Left = namedtuple("Left", "durable commits top")


def refused(error):
    return Verdict(b"", b"", 1, error.encode(), None, None)


def options(asked):
    population = ["--population", asked.population] if asked.population else []
    return [*options_of(scripts.OPTIONS, asked.scale), "--loggers", asked.loggers, *population]


def words_of(asked, folder):
    return ["--logs", folder, *options(asked)]


def version_of(path):
    """The version of a log file; of bytes that begin with no header the one that is written today."""
    try:
        return replay.read_header(replay.Source("", path.read_bytes())).version
    except replay.Damaged:
        return TODAY


def files_of(paths, asked, version):
    """The log files that are asked for, in this version. Raises the flaw of the first that isn't one."""
    files, scale = [], replay.Scale(*asked.scale)
    for logger, path in enumerate(paths):
        header = replay.Header(version, logger, asked.loggers, scale, asked.population)
        files.append(examined(path, path.read_bytes(), header, WANTED))
    return files


def missing_told(paths, missing):
    """What is told of a file that isn't there, of those of these paths: where the first is of another number of
    loggers, that."""
    try:
        loggers = replay.read_header(replay.Source("", paths[0].read_bytes()[:HEADER_BYTES])).loggers
    except (replay.Damaged, FileNotFoundError):
        loggers = len(paths)
    if loggers != len(paths):
        return f"--loggers {len(paths)}, but {paths[0]} is of {loggers}"
    return f"{missing}: can't be opened: No such file or directory (os error 2)"


def top_of(file):
    """The last epoch of which a file has anything."""
    return max(file.mark, *(replay.epoch_of(entry.tid) for entry in file.entries), 0)


def other_text_of(scale, version, entries):
    """What is to be said of the first text of C_DATA that isn't what its Payment leaves, or None."""
    try:
        if version == TODAY:
            replay.examine_texts(scale, entries)
    except replay.OtherData as why:
        return str(why)
    return None


def verdict(folder, asked, only=None):
    """What is to be said of the files in a folder, which are of the plain population where they are those asked for.
    They are to be of the version of the first, and of this one where one is named."""
    paths = [Path(folder) / f"log-{logger}" for logger in range(asked.loggers)]
    if missing := next((path for path in paths if not path.exists()), None):
        return refused(f"9 Device\n{missing_told(paths, missing)}\n")
    try:
        version = version_of(paths[0])
        files = files_of(paths, asked, version)
        if only and version != only:
            raise Flaw(f"{paths[0]}: it is of version {version}, which can be recovered and checked, not gone on with")
        durable, entries = replay.counted(files)
    except Flaw as why:
        return refused(f"10 Damaged\n{why}\n")
    except replay.Gap as why:
        return refused(f"11 Gap\n{why}\n")
    scale = replay.Scale(*asked.scale)
    shown = replay.text_of(replay.Replay(scale, durable, len(entries), replay.newest_of(entries)))
    report, holds = conditions.report(scale, entries)
    checked = f"commits {len(entries)}\n{report}"
    left = Left(durable, len(entries), max(top_of(file) for file in files))
    other_text = other_text_of(scale, version, entries)
    return Verdict(shown.encode(), checked.encode(), 0 if holds else 1, b"", left, other_text)


def examine(tpcc, folder, asked, threads=1):
    """Recovers and checks the log files in a folder, which is to come to the verdict. Gives the verdict."""
    wanted, words = verdict(folder, asked), words_of(asked, folder)
    for subcommand, output in (("recover", wanted.recover), ("check", wanted.check)):
        ran = run(tpcc, subcommand, *words, "--threads", threads)
        same(f"what standard error gets of {subcommand}", ran.err, wanted.error)
        same(f"the output of {subcommand}", ran.out, output)
        same(f"the status of {subcommand}", ran.status, wanted.status)
    return wanted
