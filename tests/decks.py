"""Tests of the built program on what its terminals run: the inputs of their decks, each once and in order."""

import tempfile
from pathlib import Path

import draws
import replay
from checks import ends, same, shows_runs
from logs import counts_of, run_in

# The seed, and how many inputs each terminal has.
SEED, INPUTS = 11, 300

# The amount of a payment, and who pays it by number, stand at the end of a deck's line.
WHO, AMOUNT = 6, 7


def payments_of(deck):
    """The payments among a deck's inputs, by date."""
    lines = [deck.next(date) for date in range(1, INPUTS + 1)]
    return {line[1]: line for line in lines if line[0] == "payment"}


def history_of(file, terminal):
    """The HISTORY rows of a terminal's entries in a log file, in their order."""
    writes = [write for entry in file.entries if entry.terminal == terminal for write in entry.writes]
    return [columns for _, _, columns in writes]


def is_of(row, line):
    """Whether a HISTORY row is what this payment adds; a customer by last name is whoever has it."""
    customer, customer_district, customer_warehouse, district, warehouse, date, amount = row
    _, on, at, number, paid_at, paid_district, who, cents = line
    places = (warehouse, district, customer_warehouse, customer_district) == (at, number, paid_at, paid_district)
    return places and (date, amount) == (on, cents) and (who.startswith("last ") or who == f"id {customer}")


@shows_runs
def terminals_run_their_decks():
    scale = draws.Scale(2, 10, 100, 1_000)
    words = f"--warehouses 2 --terminals 3 --loggers 2 --seed {SEED} --count {INPUTS}".split()
    with tempfile.TemporaryDirectory() as folder:
        ran = run_in(folder, *words)
        ends("of a run whose inputs are looked at", ran, 0, ran.out)
        counts = counts_of(ran.out)
        files = [
            replay.LogFile(path, path.read_bytes(), wanted=(replay.HISTORY,))
            for path in (Path(folder) / f"log-{logger}" for logger in range(2))
        ]
    paid = 0
    for terminal in range(3):
        wanted = payments_of(draws.Deck(scale, draws.USUAL, terminal, SEED))
        rows = history_of(files[terminal % 2], terminal)
        dates = [row[5] for row in rows]
        same(f"whether terminal {terminal}'s payments are in order", dates, sorted(set(dates)))
        are_its = all(row[5] in wanted and is_of(row, wanted[row[5]]) for row in rows)
        same(f"whether terminal {terminal}'s payments are its deck's", are_its, True)
        paid += len(wanted) - len(rows)
    lost = counts.gaveup + counts.refused
    same("whether a payment is left out only where an input was given up or refused", 0 <= paid <= lost, True)
