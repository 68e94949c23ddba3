"""Random changes to the bodies and entries of a log file. Each takes a log, and changes it where it has such a part."""

import copy

import replay
from fuzzing.bodies import Body, Entry, Write, void_of

# Numbers at the edges of what a field may be.
EDGES = (0, 1, 2**31, 2**32 - 2, 2**32 - 1, 2**32, 2**63 - 1, 2**63, 2**64 - 2, 2**64 - 1)

STATUS_BITS = 8


def near(draws, number):
    """Another number, mostly a neighbour."""
    steps = (1, -1, 1, -1, 2, -2, 8, -8, 100, 2**32, -(2**32))
    return draws.choice((number + draws.choice(steps), number + draws.choice((1, -1)), draws.choice(EDGES)))


def header(draws, log):
    place = draws.randrange(len(log.numbers))
    log.numbers[place] = near(draws, log.numbers[place])


def magic(draws, log):
    log.magic = draws.choice((b"SILOTPCD", b"siloTPCC", b"\0" * 8))


def order_of_bodies(draws, log):
    """Bodies exchanged, doubled, dropped, or one divided."""
    if not log.bodies:
        return
    one, other = draws.randrange(len(log.bodies)), draws.randrange(len(log.bodies))
    body = log.bodies[one]
    half = draws.randint(0, len(body.entries))
    match draws.randrange(5):
        case 0:
            log.bodies[one], log.bodies[other] = log.bodies[other], body
        case 1:
            log.bodies.insert(other, copy.deepcopy(body))
        case 2:
            del log.bodies[one]
        case 3:
            del log.bodies[one:]
        case 4 if not body.void:
            log.bodies[one : one + 1] = [Body(body.mark, body.entries[:half]), Body(body.mark, body.entries[half:])]


def mark(draws, log):
    if log.bodies:
        body = draws.choice(log.bodies)
        body.mark = near(draws, body.mark)


def length(draws, log):
    """A length or a gate that doesn't fit."""
    if log.bodies:
        body = draws.choice(log.bodies)
        if draws.random() < 0.6:
            body.longer = draws.choice((1, -1, 8, -8, draws.choice(EDGES)))
        else:
            body.gate = draws.choice((0, 2, 255))


def epochs(log):
    """The epochs that a log speaks of."""
    marks = [body.mark for body in log.bodies if not body.void]
    return [*marks, *(entry.tid >> 32 for entry in log.entries()), *(one for body in log.bodies for one in body.void)]


def void(draws, log):
    """A void body more, with epochs that stand near, or one that is changed."""
    voids = [body for body in log.bodies if body.void]
    if voids and draws.random() < 0.5:
        body = draws.choice(voids)
        low, high = body.void
        body.void = draws.choice(((near(draws, low), high), (low, near(draws, high)), (low, high, 0)))
        return
    place = draws.choice((len(log.bodies), draws.randint(0, len(log.bodies))))
    known = sorted(epochs(log)) or [1]
    low, high = draws.choice(known) + draws.randint(-1, 2), draws.choice((*known[-3:], *known)) + draws.randint(-1, 2)
    if draws.random() < 0.1:
        low, high = draws.choice(((low, replay.MAX_MARK), (low, replay.MAX_MARK + 1), (0, high), (high + 1, high)))
    log.bodies.insert(place, void_of(low, high))


def order_of_entries(draws, log):
    """Entries exchanged, doubled, dropped, or moved to another body."""
    full = [body for body in log.bodies if body.entries]
    if not full:
        return
    entries = draws.choice(full).entries
    others = draws.choice([body for body in log.bodies if not body.void]).entries
    one = draws.randrange(len(entries))
    match draws.randrange(4):
        case 0:
            other = draws.randrange(len(entries))
            entries[one], entries[other] = entries[other], entries[one]
        case 1:
            others.append(copy.deepcopy(entries[one]))
        case 2:
            del entries[one]
        case 3:
            others.insert(0, entries.pop(one))


def entry(draws, log):
    """A number, TID or terminal that is another."""
    if not (entries := log.entries()):
        return
    one, other, loggers = draws.choice(entries), draws.choice(entries), log.numbers[2]
    cap = log.numbers[8]
    match draws.randrange(7):
        case 0:
            one.number = draws.choice((near(draws, one.number), other.number, cap, cap + 1))
        case 1:
            one.tid = draws.choice((near(draws, one.tid), other.tid))
        case 2:
            one.tid += draws.choice((1, -1)) * draws.choice((8, 2**32))
        case 3:
            one.tid += draws.randrange(STATUS_BITS)
        case 4:
            one.terminal = draws.choice((near(draws, one.terminal), 15, 16, one.terminal + loggers))
        case 5:
            one.number, other.number = other.number, one.number
        case 6:
            one.tid, other.tid = other.tid, one.tid


def added(draws, log):
    """An entry more behind all others, which a body of its own has: of a history that nobody has made."""
    known, numbers = epochs(log) or [1], [entry.number for entry in log.entries()] or [0]
    epoch, number = max(known) + draws.randint(0, 2), max(numbers) + draws.randint(0, 2)
    paid = Write(replay.WAREHOUSE, 0, 1, [draws.choice((0, 10**13, -(10**13), 10**13 + 1, 5))])
    tid = (epoch << 32) + 8 * draws.randrange(3)
    log.bodies.append(Body(epoch + draws.randint(-1, 1), [Entry(number, tid, log.numbers[1], [paid])]))


def log_scale(log):
    return log.numbers[3:9]
