"""Tests of the built program on C_DATA, which Payments of customers with bad credit change, in scripts and in log
files, and on log files of the first version, which have nothing of it."""

import tempfile
from pathlib import Path

import draws
import kills
import replay
from checks import REPORT, SMALL, Checks, ends, run, same, shows, shows_runs, whole
from logs import (
    FIRST_VERSION, LATEST_EPOCH, SCALE, TWO, VERSION, body, contents_of, counts_of, data_of, data_write, entry, log,
    on_logs, payment, put_files, run_in, void, with_more,
)

FIRST_TEXT = "x" * 300


def shown(customer, text, district=1):
    return f"data 1 {district} {customer} {len(text)} {text}\n".encode()


# ---- Scripts


@shows
def c_data_is_shown_whole():
    for args in (SMALL, [*SMALL, "--population", "1"]):
        answers = shown(10, FIRST_TEXT) + b"2 line 2\n"
        ends(f"of {args}", run(args, b"show data 1 1 10\nshow data 1 1 11\n"), 0, whole(answers, 0))


def balances(customer, count, cents=1234):
    """The replies to so many payments, one after another."""
    return b"".join(
        b"payment 1 1 customer 1 1 %d balance -%d.%02d\n" % (customer, *divmod(1000 + number * cents, 100))
        for number in range(1, count + 1)
    )


@shows
def a_payment_of_bad_credit_is_put_at_the_left_of_c_data():
    kinds = [
        ("customer 10 once", 10, 1, "10 1 1 1 1 12.34|" + FIRST_TEXT),
        ("customer 10 eleven times", 10, 11, "10 1 1 1 1 12.34|" * 11 + FIRST_TEXT),
        ("customer 10 twelve times", 10, 12, "10 1 1 1 1 12.34|" * 12 + "x" * 296),
        ("customer 10 forty times", 10, 40, ("10 1 1 1 1 12.34|" * 30)[:500]),
        ("customer 3", 3, 1, FIRST_TEXT),
    ]
    same("the lengths of the texts", [len(text) for *_, text in kinds], [317, 487, 500, 500, 300])
    for what, customer, count, text in kinds:
        lines = b"payment 1 1 1 1 %d 12.34\n" % customer * count + b"show data 1 1 %d\n" % customer
        answers = balances(customer, count) + shown(customer, text)
        ends(f"where {what} pays", run(SMALL, lines), 0, whole(answers, count))


@shows
def a_text_of_c_data_tells_who_paid_where_and_how_much():
    lines = [
        (b"payment 1 2 1 1 10 1.00\n", b"payment 1 2 customer 1 1 10 balance -11.00\n"),
        (b"payment 1 1 1 1 BARBAREING 5000.00\n", b"payment 1 1 customer 1 1 10 balance -5011.00\n"),
        # Another customer, of the other district.
        (b"payment 1 1 1 2 10 20.05\n", b"payment 1 1 customer 1 2 10 balance -30.05\n"),
        (b"show data 1 1 10\n", shown(10, "10 1 1 1 1 5000.00|10 1 1 2 1 1.00|" + FIRST_TEXT)),
        (b"show data 1 2 10\n", shown(10, "10 2 1 1 1 20.05|" + FIRST_TEXT, district=2)),
        (b"show data 1 2 9\n", shown(9, FIRST_TEXT, district=2)),
    ]
    script, answers = (b"".join(texts) for texts in zip(*lines))
    ends("of payments", run(SMALL, script), 0, whole(answers, 3))
    # A line that is refused leaves the text.
    refused = b"payment 1 1 1 1 10 0.99\nshow data 1 1 10\n"
    ends("of a payment that is refused", run(SMALL, refused), 0, whole(b"2 line 1\n" + shown(10, FIRST_TEXT), 0))


@shows
def c_data_goes_by_the_credit_that_a_population_draws():
    rows = draws.Population(draws.Scale(1, 2, 10, 20)).rows["customer"]
    bad = [row[:3] for row in rows if row[-1] == "BC"]
    same("whether some credit is bad, and some good", 0 < len(bad) < len(rows), True)
    keys = [row[:3] for row in rows]
    script = b"".join(b"payment 1 1 %d %d %d 1.00\nshow data %d %d %d\n" % (*key, *key) for key in keys)
    ran = run([*SMALL, "--population", str(draws.SEED)], script)
    texts = [(f"{c} {d} {w} 1 1 1.00|" if (w, d, c) in bad else "") + FIRST_TEXT for w, d, c in keys]
    wanted = b"".join(shown(key[2], text, key[1]) for key, text in zip(keys, texts))
    lines = ran.out.splitlines(keepends=True)
    same("what is shown", b"".join(line for line in lines if line.startswith(b"data ")), wanted)
    same("the report", b"".join(lines[2 * len(keys) :]), b"commits %d\n" % len(keys) + REPORT)


# ---- Log files

# Customer 3 has paid 12.34, in a file of the first version, which has 222 bytes.
OLD = log(0, 1, body(1, payment(1, 1, 0, customer=3, cents=1234, date=1)), version=FIRST_VERSION)

# Customer 10 has, of bad credit: there stands nothing of it in the first version.
OLD_TEN = log(0, 1, body(1, payment(1, 1, 0, 10, 1234, 1, version=FIRST_VERSION)), version=FIRST_VERSION)
TEN = payment(1, 1, 0, customer=10, cents=1234, date=1)

SHOWN = (
    b"durable 1\ncommits 1\nwarehouse 1 ytd 212.34\ndistrict 1 1 ytd 112.34 next 11\ndistrict 1 2 ytd 100.00 next 11\n"
)


@shows
def log_files_of_both_versions_are_recovered():
    same("the length of a file of the first version", len(OLD), 222)
    same("its version", OLD[8:12], b"\1\0\0\0")
    same("the length of a payment with its text", len(TEN), 481)
    same("the length that its body tells", body(1, TEN)[:8].hex(), "ea01000000000000")
    new = log(0, 1, body(1, payment(1, 1, 0, customer=3, cents=1234, date=1)))
    for what, file in [("old", OLD), ("old with bad credit", OLD_TEN), ("new", new), ("text", log(0, 1, body(1, TEN)))]:
        for threads in ("1", "2"):
            scale = [*SMALL[1:], "--threads", threads]
            ends(f"of recover of {what} in {threads} threads", on_logs("recover", [file], scale=scale), 0, SHOWN)
            ends(f"of check of {what} in {threads} threads", on_logs("check", [file], scale=scale), 0, whole(b"", 1))
    eight = [log(n, 8, body(9, entry(n + 1, n + 1, n)), version=FIRST_VERSION) for n in range(8)]
    ends("of check of eight files of the first version", on_logs("check", eight), 0, whole(b"", 8))


def with_text(text):
    """A file in which customer 10 has paid, and left this text."""
    paid = payment(1, 1, 0, 10, 1234, 1, version=FIRST_VERSION)
    return log(0, 1, body(1, with_more(paid, data_write(9, text))))


@shows
def texts_at_the_edges_of_their_rules_are_recovered():
    kinds = [
        ("300 bytes", b"x" * 300),
        ("500 bytes", b"y" * 500),
        ("byte 32", b" " * 300),
        ("byte 126", b"~" * 500),
        ("every byte that may stand there", bytes(range(32, 127)) * 4),
    ]
    for what, text in kinds:
        ends(f"of recover of a text of {what}", on_logs("recover", [with_text(text)]), 0, SHOWN)
        ends(f"of check of a text of {what}", on_logs("check", [with_text(text)]), 0, whole(b"", 1))


def replayed(*files):
    """What a reading by the format alone tells of files: a replay, or the sentence that it fails by."""
    with tempfile.TemporaryDirectory() as folder:
        put_files(folder, files)
        try:
            return replay.text_of(replay.replay(folder, len(files))).encode()
        except replay.OtherData as why:
            return str(why)


@shows
def a_replay_tells_a_text_that_is_not_its_payments():
    right, first = data_of(10, 1234), FIRST_TEXT.encode()
    same("a replay of the right text", replayed(with_text(right)), SHOWN)
    same("a replay of the first version", replayed(OLD_TEN), SHOWN)
    for text in (first, right.replace(b"10 1", b"9 1", 1), right[17:] + right[:17], right[:-1]):
        wanted = f"commit 1 leaves {text} in place 9 of C_DATA, and not {right}"
        same(f"a replay of {text}", replayed(with_text(text)), wanted)
    without = log(0, 1, body(1, payment(1, 1, 0, 10, 1234, 1, version=FIRST_VERSION)))
    same("a replay without the text", replayed(without), f"commit 1 leaves None in place 9 of C_DATA, and not {right}")
    spare = with_more(payment(1, 1, 0, 3, 1234, 1), data_write(2, first))
    wanted = f"commit 1 leaves {first} in place 2 of C_DATA, and not None"
    same("a replay of a text more", replayed(log(0, 1, body(1, spare))), wanted)


# ---- Runs

OLDER = "it is of version 1, which can be recovered and checked, not gone on with"


@shows_runs
def a_run_does_not_go_on_from_files_of_the_first_version():
    # Such a file is refused before an epoch that is the last one is, and before a commit that is missing.
    full = log(0, 1, body(LATEST_EPOCH - 1, entry(1, LATEST_EPOCH, 0)), version=FIRST_VERSION)
    gap = log(0, 1, body(5, entry(2, 4, 0)), version=FIRST_VERSION)
    lost = log(0, 1, body(5, entry(1, 4, 0)), void(6, 8), version=FIRST_VERSION)
    pairs = [[log(logger, 2, body(5), version=version) for version in (FIRST_VERSION, VERSION)] for logger in (0, 1)]
    kinds = [
        ("one file", [OLD], f"log-0: {OLDER}"),
        ("a file without bodies", [log(0, 1, version=FIRST_VERSION)], f"log-0: {OLDER}"),
        ("the last epoch", [full], f"log-0: {OLDER}"),
        ("a missing commit", [gap], f"log-0: {OLDER}"),
        ("a void body", [lost], f"log-0: {OLDER}"),
        ("the first version in front", [pairs[0][0], pairs[1][1]], "log-1: it is of version 2, and log-0 is of 1"),
        ("the first version behind", [pairs[0][1], pairs[1][0]], "log-1: it is of version 1, and log-0 is of 2"),
    ]
    for what, files, text in kinds:
        with tempfile.TemporaryDirectory() as folder:
            put_files(folder, files)
            words = [*SMALL[1:], "--terminals", "1", "--count", "0", "--resume", "--loggers", str(len(files))]
            ends(f"on {what}", run_in(folder, *words), 1, err=f"10 Damaged\nDIR/{text}\n".encode())
            same(f"the files of {what} then", contents_of(folder), {f"log-{n}": text for n, text in enumerate(files)})


def texts_in(folder, loggers):
    """The texts of C_DATA that stand in the log files of this folder, each behind its place, in the files' order."""
    paths = [Path(folder) / f"log-{logger}" for logger in range(loggers)]
    files = [replay.LogFile(path, path.read_bytes()) for path in paths]
    writes = [write for file in files for entry in file.entries for write in entry.writes]
    return [(place, text) for table, place, text in writes if table == replay.DATA]


@shows_runs
def runs_leave_the_texts_of_their_payments():
    with tempfile.TemporaryDirectory() as folder:
        texts = 0
        for life in ([], ["--resume", "--seed", "2"], ["--resume", "--seed", "3"]):
            ran = run_in(folder, *SCALE, *TWO, "--count", "150", *life)
            same(f"the status of {life}", ran.status, 0)
            same(f"the versions of {life}", {text[8:12] for text in contents_of(folder).values()}, {b"\2\0\0\0"})
            # A replay makes the texts itself.
            kills.examine(Checks.program, folder, 2, SCALE)
            before, texts = texts, len(texts_in(folder, 2))
            same(f"whether {life} leaves texts", texts > before, True)


@shows_runs
def a_run_goes_on_from_the_texts_of_log_files():
    with tempfile.TemporaryDirectory() as folder:
        put_files(folder, [log(0, 1, body(1, TEN))])
        ran = run_in(folder, *SMALL[1:], "--terminals", "1", "--loggers", "1", "--count", "400", "--resume")
        same("the status of it", ran.status, 0)
        counts_of(ran.out.partition(b"\n")[2])
        kills.examine(Checks.program, folder, 1, SMALL[1:])
        # Those of the customer who had paid before: each Payment has put its numbers in front of the text before it.
        texts = [text for place, text in texts_in(folder, 1) if place == 9]
        same("the first text of customer 10", texts[:1], [data_of(10, 1234)])
        same("whether it leaves others", len(texts) > 1, True)
        for before, text in zip(texts, texts[1:]):
            front, bar, _ = text.partition(b"|")
            same("a text that customer 10 has then", text, (front + bar + before)[:500])
