"""Random damage to log files: to their bytes, to their parts, and to which files there are."""

from fuzzing.bodies import HEADER_BYTES, in_the_other_version, log_of
from fuzzing.edges import body_at_edge, entry_at_edge
from fuzzing.parts import added, entry, header, length, magic, mark, order_of_bodies, order_of_entries, void
from fuzzing.records import column, data, data_added, filled, order_of_writes, row, write

# What is changed, some of it oftener.
PARTS = (
    header, magic, length, mark, order_of_bodies, order_of_bodies, void, void, order_of_entries, order_of_entries,
    entry, order_of_writes, write, write, filled, filled, added, *[column] * 6, *[row] * 14, *[entry_at_edge] * 14,
    *[body_at_edge] * 6, *[data] * 10, *[data_added] * 3,
)


def bytes_damaged(draws, text):
    """The text with a bit, a byte, a few bytes or its length changed."""
    at, few = draws.randint(0, max(len(text) - 1, 0)), draws.randint(1, 9)
    if draws.random() < 0.2:
        at = min(draws.randrange(HEADER_BYTES + 20), at)
    return draws.choice((
        lambda: text[:at] + bytes([text[at] ^ 1 << draws.randrange(8)]) + text[at + 1 :] if text else text,
        lambda: text[:at] + bytes([draws.choice((0, 1, 2, 255, draws.randrange(256)))]) + text[at + 1 :],
        lambda: text[:at],
        lambda: text[: -few],
        lambda: text[:at] + text[at + few :],
        lambda: text[:at] + draws.randbytes(few) + text[at:],
        lambda: text[:at] + text[at : at + 40] + text[at:],
        lambda: text + draws.randbytes(few),
        lambda: text[:-1] + draws.choice((b"", b"\1", b"\2", b"\0\1")),
    ))()


def parts_damaged(draws, text):
    """The text of a log file with some of its parts changed, and lengths that fit, unless they are what is changed."""
    log = log_of(text)
    parts = [draws.choice(PARTS) for _ in range(draws.choice((1, 1, 1, 1, 2, 3)))]
    # A header is changed last, since what is changed goes by its scale.
    for part in sorted(parts, key=lambda part: part is header):
        part(draws, log)
    return log.text()


def files_exchanged(draws, files, others):
    """Files in another order, one of them twice, one of another database or version, or one that has nothing or isn't
    there."""
    one, other = draws.randrange(len(files)), draws.randrange(len(files))
    match draws.randrange(7):
        case 0:
            files[one], files[other] = files[other], files[one]
        case 1:
            files[one] = files[other]
        case 2:
            files[one] = draws.choice(others)
        case 3:
            files[one] = b""
        case 4:
            files[one] = None
        case _:
            files[one] = in_the_other_version(files[one])


def damaged(draws, files, others):
    """Log files with random damage, or none; None stands for one that isn't there. `others` are of other databases."""
    files = list(files)
    # Of two, the longer one: some loggers have no terminal.
    one, kind = max((draws.randrange(len(files)) for _ in range(2)), key=lambda at: len(files[at])), draws.random()
    if kind < 0.04:
        return files
    if kind < 0.1:
        files_exchanged(draws, files, others)
    elif kind < 0.22:
        files[one] = bytes_damaged(draws, files[one])
    elif kind < 0.9:
        files[one] = parts_damaged(draws, files[one])
    else:
        files = [parts_damaged(draws, text) for text in files]
        files[one] = bytes_damaged(draws, files[one])
    return files
