"""Changes to a log file at the edge of a rule of docs/LOG.md, or just beyond it."""

import replay
from fuzzing.bodies import void_of
from fuzzing.parts import epochs


def mark_of(body):
    return body.void[1] if body.void else body.mark


def with_epoch(tid, epoch):
    return (epoch << 32) + tid % 2**32


def entry_at_edge(draws, log):
    """An entry's number, epoch or terminal."""
    full = [at for at, body in enumerate(log.bodies) if body.entries]
    if not full:
        return
    # Behind the last one nothing is to fit what is changed.
    at, beyond = draws.choice((full[-1], draws.choice(full))), draws.choice((0, 1, 1))
    before, body = max((mark_of(body) for body in log.bodies[:at]), default=0), log.bodies[at]
    place = draws.randrange(len(body.entries))
    first, one, last = body.entries[0], body.entries[place], body.entries[-1]
    ahead = body.entries[max(place - 1, 0)]
    match draws.randrange(7):
        case 0:
            last.number = log.numbers[8] + beyond
        case 1:
            first.number = 1 - beyond
        case 2:
            one.number = ahead.number + 1 - beyond
        case 3:
            last.tid = with_epoch(last.tid, body.mark + 1 + beyond)
        case 4:
            first.tid = with_epoch(first.tid, before + 1 - beyond)
        case 5:
            one.tid = with_epoch(one.tid, (ahead.tid >> 32) - beyond)
        case 6:
            own = 15 - (15 - one.terminal) % log.numbers[2]
            one.terminal = draws.choice((one.terminal + beyond, own + beyond * log.numbers[2]))


def body_at_edge(draws, log):
    """A mark, or a void body more behind all others."""
    beyond, known = draws.choice((0, 1, 1)), epochs(log) or [1]
    top, some = max(known), draws.choice(known)
    if log.bodies and draws.random() < 0.4:
        at = draws.randrange(len(log.bodies))
        before = max((mark_of(body) for body in log.bodies[:at]), default=0)
        log.bodies[at].mark = before - beyond
        if draws.random() < 0.4:
            log.bodies[-1].mark = replay.MAX_MARK + beyond
        return
    lows = (1 - beyond, top), (top + beyond, top), (some, top - beyond), (some, replay.MAX_MARK + beyond)
    log.bodies.append(void_of(*draws.choice((*lows, (some + beyond, top)))))
