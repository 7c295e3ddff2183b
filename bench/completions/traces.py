"""The traces that the measurements of `seqtool complete` take: of each process the lines of its events."""

import random
from functools import partial

FIRST = 30  # The number of the first process.
NUMBERS = 1 << 16  # Of a node. Further processes are on the next ones.


def pid(place):
    node, number = divmod(FIRST + place, NUMBERS)
    return f"<{node}.{number}.0>"


def event(kind, serial, sender, receiver, value):
    """The line of an event between the processes at these places; a print has no receiver."""
    to = "[]" if receiver is None else pid(receiver)
    return f"{{seq_trace,17,{{{kind},{{{serial[0]},{serial[1]}}},{pid(sender)},{to},{value}}}}}\n"


def written(streams, path):
    """Writes the bundle of the streams; how many events they have."""
    with open(path, "w", encoding="ascii") as text:
        text.write("seqtrace 1\n")
        for place, events in enumerate(streams):
            text.write(f"process {pid(place)}\n")
            text.writelines(events)
    return sum(len(events) for events in streams)


class Run:
    """A run of processes that report some of what they do."""

    def __init__(self, processes, reported=("send", "'receive'", "print"), clock=0):
        self.reported = reported
        self.clocks = [clock] * processes
        self.lasts = list(self.clocks)
        self.queues = [[] for _ in self.clocks]
        self.streams = [[] for _ in self.clocks]
        self.seed = random.Random(2026)
        self.told = 0

    def tell(self, kind, me, serial, sender, receiver, value):
        if kind in self.reported:
            self.streams[me].append(event(kind, serial, sender, receiver, value))
            self.told += 1

    def stamp(self, me):
        self.clocks[me] += 1
        return self.lasts[me], self.clocks[me]

    def print(self, me):
        self.tell("print", me, self.stamp(me), me, None, 5)

    def send(self, me, to):
        serial = self.stamp(me)
        self.tell("send", me, serial, me, to, 7)
        self.queues[to].append((me, serial))

    def receive(self, me):
        sender, serial = self.queues[me].pop(0)
        self.clocks[me] = max(self.clocks[me], serial[1])
        self.lasts[me] = serial[1]
        self.tell("'receive'", me, serial, sender, me, 7)

    def go(self, acts):
        """Acts of all kinds, by processes at random; the streams."""
        for _ in range(acts):
            self.act()
        return self.streams

    def go_until(self, events):
        """Goes on until this many events are reported."""
        while self.told < events:
            self.act()
        return self.streams

    def act(self):
        me = self.seed.randrange(len(self.clocks))
        kind = self.seed.randrange(8)
        if kind == 7:
            self.print(me)
        elif kind < 4 and self.queues[me]:
            self.receive(me)
        else:
            self.send(me, self.seed.randrange(len(self.clocks)))


def ring(processes, events):
    """Everything is reported: each process passes a token on to the next one, round after round."""
    streams = [[] for _ in range(processes)]
    for n in range(events // 2):
        sender, receiver = n % processes, (n + 1) % processes
        for kind, place in (("send", sender), ("'receive'", receiver)):
            streams[place].append(event(kind, (n, n + 1), sender, receiver, n))
    return streams


def run_of(reported, processes, events):
    """A run of these processes, of which some kinds of events are reported."""
    return Run(processes, reported).go_until(events)


def needs(processes, events):
    """Each process prints after messages that nobody reports: a print's prev is one below the count before it."""
    return [[event("print", (max(0, 2 * n - 1), 2 * n + 2), me, None, n) for n in range(events // processes)]
            for me in range(processes)]


def asked(times, events):
    """One process prints after messages that nobody reports, a number of them for each count."""
    of_two = 2 * times
    return [[event("print", (2 * (n // of_two) + 1 + n % 2 if n else 0, events + n), 0, None, n) for n in range(events)]]


def stretch(events):
    """Two processes receive from each other half of the events each. No send is reported, nor anything else, so that each
    has all of its receives and hidden sends in one stretch."""
    return [[event("'receive'", (n, n + 1), 1, 0, n) for n in range(events // 2)],
            [event("'receive'", (0, n + 1), 0, 1, n) for n in range(events // 2)]]


def damaged(prev, events):
    """The streams with another prev at the event in the middle of the first process."""
    streams = stretch(events)
    middle = events // 4
    streams[0][middle] = event("'receive'", (prev(middle), middle + 1), 1, 0, middle)
    return streams


NO_SENDS, NO_RECEIVES, PRINTS = ("'receive'", "print"), ("send", "print"), ("print",)
PROCESSES = 1024  # As many as `seqaudit` reads.

# Each sort of trace with what `complete` says of it, and the processes of the full trace that `audit` is given.
SORTS = (
    ("no sends, 1 process", partial(run_of, NO_SENDS, 1), "added", 1),
    ("no sends, 1,024 processes", partial(run_of, NO_SENDS, PROCESSES), "added", PROCESSES),
    ("no receives, 1 process", partial(run_of, NO_RECEIVES, 1), "added", 1),
    ("no receives, 1,024 processes", partial(run_of, NO_RECEIVES, PROCESSES), "added", PROCESSES),
    ("prints alone, 1 process", partial(run_of, PRINTS, 1), "added", 1),
    ("prints alone, 1,024 processes", partial(run_of, PRINTS, PROCESSES), "added", PROCESSES),
    ("each print after an unreported receive, 1 process", partial(needs, 1), "added", 1),
    ("each print after an unreported receive, 1,024 processes", partial(needs, PROCESSES), "added", PROCESSES),
    ("one stretch, half receives and half hidden sends", stretch, "added", 2),
    ("the same, one prev lowered by 3", partial(damaged, lambda prev: prev - 3), "added", 2),
    ("the same, one prev 0", partial(damaged, lambda prev: 0), "never", 2),
    ("each count asked for nine times", partial(asked, 9), "added", 1),
)
