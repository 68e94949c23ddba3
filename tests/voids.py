"""Tests of the built program on log files with void bodies, which are made by hand: what a restart leaves."""

import tempfile

import replay
from checks import SMALL, ends, same, shows
from logs import LATER, LOGS, body, entry, log, on_logs, put_files, void

# Two files, of which the second goes on where the first has ended, once epochs 6 to 8 were given up in both.
FIRST = body(5, entry(1, 4, 0))
SECOND = body(7, entry(2, 5, 1), entry(3, 6, 1), entry(4, 7, 1), entry(5, 8, 1))
RESTARTED = [log(0, 2, FIRST, void(6, 8)), log(1, 2, SECOND, void(6, 8))]


def told(durable, commits):
    """What is recovered at the scale of SMALL where so many customers have paid 1.00 in district 1."""
    return (
        f"durable {durable}\ncommits {commits}\nwarehouse 1 ytd {200 + commits}.00\n"
        f"district 1 1 ytd {100 + commits}.00 next 11\ndistrict 1 2 ytd 100.00 next 11\n"
    ).encode()


def replayed(files):
    """What a reading by the format alone tells of these files."""
    with tempfile.TemporaryDirectory() as folder:
        put_files(folder, files)
        return replay.text_of(replay.replay(folder, len(files))).encode()


GOOD = [
    ("files of which both are restarted", RESTARTED, (8, 2)),
    ("files of which the first is restarted", [RESTARTED[0], LATER], (7, 2)),
    ("files of which the second is restarted", [LOGS[0], RESTARTED[1]], (5, 2)),
    # Commit 3 of epoch 6 was lost, and another one is commit 3 in the life behind it.
    (
        "files of two lives",
        [log(0, 2, FIRST, void(6, 8), body(9, entry(3, 9, 0))), log(1, 2, SECOND, void(6, 8), body(9))],
        (9, 3),
    ),
    # What a void body declares holds of the entries in front of it, and of those of every file.
    ("a file whose last entry is void", [log(0, 1, body(5, entry(1, 4, 0), entry(2, 5, 0)), void(5, 5))], (5, 1)),
    ("a file that goes on behind a void body", [log(0, 1, body(5, entry(1, 4, 0)), void(6, 9), body(9))], (9, 1)),
    ("a file that another one makes void", [log(0, 2, body(8, entry(1, 8, 0))), log(1, 2, void(2, 8))], (8, 0)),
    ("ranges that cover one another", [log(0, 2, FIRST, void(5, 8)), log(1, 2, SECOND, void(6, 8), void(8, 9))], (8, 1)),
    ("the last epoch", [log(0, 1, FIRST, void(6, 2**32 - 2))], (2**32 - 2, 1)),
]


@shows
def void_epochs_are_left_out_of_every_file():
    same("the lengths of restarted files", [len(text) for text in RESTARTED], [255, 723])
    for what, files, (durable, commits) in GOOD:
        for threads in ("1", "2"):
            ran = on_logs("recover", files, scale=[*SMALL[1:], "--threads", threads])
            ends(f"of recover of {what} in {threads} threads", ran, 0, told(durable, commits))
        same(f"a replay of {what}", replayed(files), told(durable, commits))


# Void bodies behind FIRST, which stands at mark 5 and epoch 4; what the program tells of such is tested in flaws.py.
BAD = [void(0, 8), void(7, 6), void(6, 2**32 - 1), void(3, 4), void(6, 8, 33) + bytes(8), void(6, 8, 17)[:24]]


@shows
def void_bodies_that_may_not_stand_are_damage_to_a_replay():
    for text in BAD:
        try:
            replayed([log(0, 1, FIRST, text)])
        except replay.Damaged:
            continue
        same(f"a replay of {text}", "text", "Damaged")
