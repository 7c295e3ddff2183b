"""Families of streams: texts without acts that grow in one dimension each."""

import random
from functools import partial

from .texts import EVENTS, LABEL, SORTS, Family, Run, event, ring


def prints(processes, events=EVENTS, first=0):
    counts = range(first + 1, first + events // processes + 1)
    return [[event("print", (0, n), me, None, 0) for n in counts] for me in range(processes)]


def one_each(processes, _events=None):
    """Each process sends to the next one, which reports nothing else."""
    return [[event("send", (0, 1), me, (me + 1) % processes, 0)] for me in range(processes)]


def silent(processes, _events=None):
    """One process prints, and the others report nothing."""
    return [[event("print", (0, 1), 0, None, 0)], *([] for _ in range(processes - 1))]


def nodes(processes, _events=None):
    return Nodes(one_each(processes))


class Nodes(list):
    """Streams of processes each of which has a node of its own."""


def labels(events, processes=1):
    """Each event has a label of its own."""
    at = enumerate(line for lines in zip(*prints(processes, events)) for line in lines)
    lines = [line.replace(str(LABEL), str(n + 1), 1) for n, line in at]
    return [lines[me::processes] for me in range(processes)]


def shared_labels(events):
    """Each label names ten processes, of a thousand."""
    streams = [[] for _ in range(1_000)]
    for n in range(events // 2):
        label, me, to = n // 5, n % 1_000, (n + 1) % 1_000
        for kind, place in (("send", me), ("'receive'", to)):
            streams[place].append(event(kind, (n, n + 1), me, to, n).replace(str(LABEL), str(label), 1))
    return streams


def values(events):
    return [[event("print", (0, n), 0, None, 2 ** 64 - n) for n in range(1, events + 1)]]


def equal_values(events):
    """Two processes do the same, and all that they do is alike."""
    return [[event("print", (0, n), me, None, 7) for n in range(1, events // 2 + 1)] for me in range(2)]


def two_values(events):
    """Events that are alike as often as not."""
    chosen = random.Random(2026)
    return [[event("print", (0, n), 0, None, chosen.randrange(2)) for n in range(1, events + 1)]]


def pairs(events):
    """Each message is between another pair of processes."""
    side = max(2, int(events ** 0.5))
    return [[event("send", (0, n + 1), me, n, 0) for n in range(side)] for me in range(side)]


def broadcast(events):
    """One process prints after it was told to, and sends to all others what each of them receives."""
    others = events // 2
    sent = [event("send", (0, n + 1), 0, n + 1, 0) for n in range(others)]
    return [sent, *([event("'receive'", (0, n + 1), 0, n + 1, 0)] for n in range(others))]


def fanned(events):
    """A process receives one message, and all its many sends follow that."""
    many = events - 2
    first = [event("send", (0, 1), 0, 1, 0)]
    return [first, [event("'receive'", (0, 1), 0, 1, 0), *(event("send", (1, n + 2), 1, 0, 0) for n in range(many))]]


def received(order, events):
    """Receives whose sends nobody reported, with their counts in this order."""
    return [[], [event("'receive'", (0, n), 0, 1, 0) for n in order(events)]]


def rising(events):
    return range(1, events + 1)


def falling(events):
    return range(events, 0, -1)


def shuffled(events):
    counts = list(rising(events))
    random.Random(2026).shuffle(counts)
    return counts


def far_apart(events):
    return range(2 ** 40, 2 ** 40 * (events + 1), 2 ** 40)


def waiting(events):
    """A server calls another process, and takes its replies while many messages wait."""
    run = Run(3)
    for _ in range(events // 6):
        run.send(2, 0)
    for _ in range(events // 6):
        run.send(0, 1)
        run.receive(1)
        run.send(1, 0)
        run.queues[0].insert(0, run.queues[0].pop())
        run.receive(0)
    return run.streams


def backwards(senders, events):
    """A process takes the newest message first."""
    run = Run(senders + 1)
    for n in range(events // 2):
        run.send(1 + n % senders, 0)
    run.queues[0].reverse()
    for _ in range(events // 2):
        run.receive(0)
    return run.streams


def begun_anew(events):
    """A process of a high clock receives a low count before each send that nobody reports, so that it begins anew there."""
    low = [event("'receive'", (0, n), 0, 1, 0) for n in range(1, events // 2 + 1)]
    high = events
    sends = [event("'receive'", (high + n, high + n + 1), 1, 2, 0) for n in range(events // 2)]
    return [[], low, sends]


def spoilt(last, events):
    """A full trace whose last event is of no run."""
    streams = ring(2, events)
    streams[1].append(event(*last(events)))
    return streams


def not_rising(events):
    return "print", (0, 1), 1, None, 0


def repeated(events):
    return "'receive'", (0, 1), 0, 1, 0


def mismatched(events):
    return "'receive'", (events, events // 2 - 1), 0, 1, 9


def scarce(events):
    """Counts that three processes sent and a fourth follows nine times, and receives for which there is neither a run nor a
    reason: each such count is one that is needed."""
    counts = range(10, 10 + 2 * (events // 24))
    first = [event("'receive'", serial, 0, 0, 0) for serial in ((0, 2), (0, 1), (1, 3), (2, 4))]
    needs, this = [event("print", (0, n), 1, None, 0) for n in (1, 2, counts[-1] + 1)], counts[-1] + 1
    for count in counts[::2]:
        for prev in 3 * (count, count + 1):
            for this in range(this + 1, this + 4):
                needs.append(event("print", (prev, this), 1, None, 0))
    sent = ([event("print", (0, n), me, None, 0) for n in (1, 2)] + [event("send", (0, n), me, 1, 0) for n in counts]
            for me in (2, 3, 4))
    return [first, needs, *sent]


def undecided(processes, events=None):
    """Four receives for which there is neither a run nor a reason, and processes whose messages nobody reported."""
    first = [event("'receive'", serial, 0, 0, 0) for serial in ((0, 2), (0, 1), (1, 3), (2, 4))]
    each = max(1, (events or processes) // processes)
    return [first, *([event("'receive'", (0, n), 1 + (me + 1) % processes, 1 + me, 0) for n in range(1, each + 1)]
                     for me in range(processes))]


def stretched(events):
    """A process reports receives and no sends, half of which another receives; and one message more needs a count that
    every process has stamped and nobody sent to it."""
    third = events // 3
    asked = third + 1 + third // 2
    own = [event("'receive'", (0, n), 2, 0, 0) for n in range(1, third + 1)]
    others = [event("print", (0, asked), 1, None, 0)]
    others += [event("'receive'", (0, third + 1 + n), 0, 1, 0) for n in range(third)]
    others.append(event("'receive'", (asked, 2 * third + 10), 0, 1, 0))
    sent = [event("send", (0, n), 2, 0, 0) for n in range(1, third + 1)]
    return [own, others, [*sent, event("print", (0, asked), 2, None, 0)]]


MOST_PROCESSES = 1_024  # Of `seqaudit`.

STREAMS = (
    Family("events of a process", partial(prints, 1), 80_000),
    Family("events of 1,000 processes", partial(prints, 1_000), 80_000),
    Family("processes", prints, MOST_PROCESSES, MOST_PROCESSES),
    Family("labels", labels, 80_000),
    Family("labels, each of another of 1,000 processes", partial(labels, processes=1_000), 80_000),
    Family("labels, each of ten of 1,000 processes", shared_labels, 80_000),
    Family("values", values, 80_000),
    Family("events that are alike", equal_values, 80_000),
    Family("events of two values in no order", two_values, 80_000),
    Family("pairs of processes", pairs, 80_000),
    Family("sends that follow one receive", fanned, 80_000),
    Family("counts from 2^63 on", partial(prints, 1, first=2 ** 63), 60_000),
    Family("hidden sends", partial(received, rising), 60_000),
    Family("hidden sends with falling counts", partial(received, falling), 60_000),
    Family("hidden sends with counts in no order", partial(received, shuffled), 60_000),
    Family("hidden sends with counts far apart", partial(received, far_apart), 60_000),
    Family("hidden sends that begin anew", begun_anew, 60_000),
    Family("a chain through two processes", partial(ring, 2), 80_000),
    Family("a chain through 1,000 processes", partial(ring, 1_000), 80_000),
    Family("processes of a chain", lambda n, events=EVENTS: ring(n, events), MOST_PROCESSES, MOST_PROCESSES),
    Family("messages that wait while a server calls", waiting, 80_000),
    Family("messages taken backwards, of one process", partial(backwards, 1), 80_000),
    Family("messages taken backwards, of 1,000 processes", partial(backwards, 1_000), 80_000),
    Family("an event that doesn't rise after many", partial(spoilt, not_rising), 80_000),
    Family("a stamp received again after many", partial(spoilt, repeated), 80_000),
    Family("a receive unlike its send after many", partial(spoilt, mismatched), 80_000),
    Family("scarce counts", scarce, 24_000),
    Family("undecided, of 100 processes", partial(undecided, 100), 60_000),
    Family("undecided, processes", undecided, MOST_PROCESSES - 1, MOST_PROCESSES - 1),
    Family("a stretch with a need that nobody meets", stretched, 60_000),
    *(Family(name, make, 40_000) for name, make, _, _ in SORTS),
)

# Texts of more processes than `seqaudit` reads.
CROWDS = (
    Family("processes that report one event each", one_each, 80_000),
    Family("processes that report nothing", silent, 80_000),
    Family("nodes of one process each", nodes, 65_000, 65_000),
    Family("processes of a long chain", lambda n: ring(n, 2 * n), 80_000),
    Family("processes with a label each", lambda n: labels(n, processes=n), 15_000),
    Family("processes of two events each", lambda n: prints(n, 2 * n), 80_000),
    Family("processes that one tells", broadcast, 80_000),
    Family("undecided, many processes", undecided, 80_000),
)
