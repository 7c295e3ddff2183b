"""Whether small streams have a run without a reset, by a search through what the machine lets their processes do, beside
some silent ones that report nothing. It knows the rules of `docs/MACHINE.md` and nothing of what `complete` does.

A process stamps the next count with its last serial as prev, or with its clock if it clears its token and sets one; a
receive gives it the count of the message. What it reports is decided by flags, which it may set as it likes. So a way of
a process, from zero up to its last event, is a sequence of steps:

    told      its next reported event
    stamp     a count and a prev, of a send or a print that isn't reported
    take      the count of a message whose receive isn't reported

The ways of all processes come from a run only if nothing is taken that nobody sends. So streams without such ways have no
run. With such ways they have one: `Acts` makes its acts, and the slow machine of `tests/models` does them.

Two things are left out, since they are of no use. A silent process sends one message of each count at most, and all of
them before anything else happens: nobody sees when, nor what their prevs are. And counts stay up to the greatest reported
one: a process that passed that stamps nothing that is told."""

import heapq
import itertools
import sys
from collections import Counter, defaultdict
from dataclasses import replace
from pathlib import Path

sys.path.insert(0, str(Path(__file__).resolve().parents[1] / "models"))

import slow_seqaudit as machine  # noqa: E402

MOST_SILENT = 3
SILENT = [(65_535, k) for k in range(MOST_SILENT)]  # On a node of their own.


class NoRun(Exception):
    """No run has the streams, whatever ways their processes go."""


def is_stamp(event):
    return event.kind != "receive"


class Told:
    """The messages and stamps of which streams tell."""

    def __init__(self, streams):
        self.streams = streams
        self.most = max((event.this for events in streams.values() for event in events), default=0)
        self.stamps = {(pid, event.this): event for pid, events in streams.items() for event in events if is_stamp(event)}
        # By process and count, the prev of a stamp that only the receive of its message tells of, and that receive.
        self.hidden, self.received = defaultdict(dict), {}
        for receive in (event for events in streams.values() for event in events if not is_stamp(event)):
            self.tell(receive)
        # For each process, how many reported sends to it have no reported receive, by count.
        self.waiting = {pid: Counter(event.this for key, event in self.stamps.items()
                                     if event.to == pid and key not in self.received) for pid in streams}

    def tell(self, receive):
        """A process stamps a count once, and a message is taken once and is as its send was."""
        key = receive.sender, receive.this
        sent = self.stamps.get(key)
        if key in self.received or sent and sent != replace(receive, kind="send"):
            raise NoRun
        self.received[key] = receive
        if not sent:
            self.hidden[receive.sender][receive.this] = receive.prev


# Ways

class Way:
    """A way so far: how many messages of each count it took, which counts it stamped that nobody is told of (each may be
    the count of a message to anyone), and the way before its last step."""

    def __init__(self, taken, given, before, step):
        self.taken, self.given, self.before, self.step = taken, given, before, step

    def is_as_good_as(self, other):
        return not other.given & ~self.given and all(mine <= its for mine, its in zip(self.taken, other.taken))

    def steps(self):
        found, way = [], self
        while way.before:
            found.append(way.step)
            way = way.before
        return found[::-1]


class Ways:
    """All ways of a process. A state is how many of its events it reported, its clock and its last serial. Of the ways
    into one state a way is dropped if another one takes no more and gives no less."""

    def __init__(self, told, pid):
        self.told, self.pid, self.events, self.hidden = told, pid, told.streams[pid], told.hidden[pid]
        # The counts that it must stamp.
        self.due = {*self.hidden, *(event.this for event in self.events if is_stamp(event))}
        self.found, self.left, self.numbers = defaultdict(list), [], itertools.count()
        self.reach((0, 0, 0), Way((0,) * (told.most + 1), 0, None, None))
        while self.left:
            *_, state, way = heapq.heappop(self.left)
            if way in self.found[state]:
                self.stamp(*state, way)
                self.receive(*state, way)

    def reach(self, state, way):
        if not any(other.is_as_good_as(way) for other in self.found[state]):
            self.found[state] = [other for other in self.found[state] if not way.is_as_good_as(other)] + [way]
            # Ways that take few and give much come first, since others are dropped for them.
            heapq.heappush(self.left, (sum(way.taken), -way.given.bit_count(), next(self.numbers), state, way))

    def stamp(self, i, clock, last, way):
        this, event = clock + 1, self.events[i] if i < len(self.events) else None
        for prev in {last, clock}:
            if event and is_stamp(event) and (event.prev, event.this) == (prev, this):
                self.reach((i + 1, this, prev), Way(way.taken, way.given, way, ("told",)))
            if self.hidden.get(this) == prev:
                self.reach((i, this, prev), Way(way.taken, way.given, way, ("stamp", this, prev)))
            if this not in self.due and this <= self.told.most:
                self.reach((i, this, prev), Way(way.taken, way.given | 1 << this, way, ("stamp", this, prev)))

    def receive(self, i, clock, last, way):
        # A count that the process must stamp can't be passed.
        counts = [this for this in range(1, self.told.most + 1) if not any(clock < due <= this for due in self.due)]
        if i < len(self.events) and not is_stamp(self.events[i]) and self.events[i].this in counts:
            this = self.events[i].this
            self.reach((i + 1, max(clock, this), this), Way(way.taken, way.given, way, ("told",)))
        for this in counts:
            taken = tuple(n + (k == this) for k, n in enumerate(way.taken))
            self.reach((i, max(clock, this), this), Way(taken, way.given, way, ("take", this)))

    def whole(self):
        """The best ways that tell all."""
        return [way for (i, clock, _), ways in self.found.items() for way in ways
                if i == len(self.events) and clock >= max(self.due, default=0)]


def asked(told, pid, way):
    """By count, how many messages a way takes of others less those that it has to give. Sends to it that were reported and
    that no reported receive took come first."""
    return tuple(max(0, taken - told.waiting[pid][count]) - (way.given >> count & 1)
                 for count, taken in enumerate(way.taken))


def least(sums):
    """Those of the sums that no other one is below."""
    return {asked: ways for asked, ways in sums.items()
            if not any(other != asked and all(n <= m for n, m in zip(other, asked)) for other in sums)}


def ways_of_all(told):
    """A way of each process, so that all together need as few silent processes as can be, and how many they need."""
    sums = {(0,) * (told.most + 1): ()}
    for pid in told.streams:
        more = {asked(told, pid, way): way for way in Ways(told, pid).whole()}
        sums = least({tuple(map(sum, zip(one, other))): (*ways, way)
                      for one, ways in sums.items() for other, way in least(more).items()})
    if not sums:
        raise NoRun
    needed, ways = min(((max(0, *one), ways) for one, ways in sums.items()), key=lambda pair: pair[0])
    return dict(zip(told.streams, ways)), needed


# Acts of them

def takers_of(told, ways, count):
    """Who takes the messages of this count unreported, by sender: first those that were reported to be sent to it."""
    free = [pid for pid, way in ways.items() if way.given >> count & 1] + SILENT
    takers = {}
    for pid, way in ways.items():
        waiting = [sender for (sender, this), event in told.stamps.items()
                   if (this, event.to) == (count, pid) and (sender, this) not in told.received]
        taken = way.taken[count]
        takers |= dict.fromkeys((waiting + free)[:taken], pid)
        free = free[max(0, taken - len(waiting)):]
    return takers


class Acts:
    """The acts of ways, a process's in their order, done one by one on the slow machine."""

    def __init__(self, told, ways):
        self.told, self.acts, self.world = told, [], machine.World([*told.streams, *SILENT])
        self.takers = {(sender, count): pid for count in range(1, told.most + 1)
                       for sender, pid in takers_of(told, ways, count).items()}
        self.events = {pid: list(events) for pid, events in told.streams.items()}
        steps = {pid: way.steps() for pid, way in ways.items()}
        steps |= {pid: [("stamp", count, 0) for count in range(1, told.most + 1)] for pid in SILENT}
        if steps:
            self.act("tracer", machine.show(min(steps)), "true")
        while any(steps.values()):
            done = [pid for pid in steps if steps[pid] and self.has_done(pid, *steps[pid][0])]
            assert done, "all wait for messages that nobody sends"
            for pid in done:
                steps[pid].pop(0)

    def act(self, *words):
        self.acts.append([str(word) for word in words])
        self.world.step(self.acts[-1])

    def has_done(self, pid, step, count=None, prev=None):
        """Does the step, unless it has to wait for a message."""
        if step == "stamp":
            self.stamp(pid, self.event_of(pid, count, prev), False)
            return True
        if step == "take":
            senders = [sender for (sender, this), taker in self.takers.items() if (this, taker) == (count, pid)]
            return self.has_received(pid, senders, count)
        event = self.events[pid][0]
        if is_stamp(event):
            self.stamp(pid, event, True)
        elif not self.has_received(pid, [event.sender], event.this):
            return False
        self.events[pid].pop(0)
        return True

    def has_received(self, pid, senders, count):
        """Takes a message of this count from one of the senders, if it is there."""
        places = [self.world.place_of(pid, sender, count) for sender in senders]
        place = next((place for place in places if place is not None), None)
        if place is not None:
            self.act("receive", machine.show(pid), "place", place)
        return place is not None

    def event_of(self, pid, count, prev):
        """A stamp that isn't reported: the send of a message that somebody takes, or a print."""
        if (pid, count) in self.told.received:
            return replace(self.told.received[pid, count], kind="send")
        to = self.takers.get((pid, count))
        return machine.Event(0, "send" if to else "print", prev, count, pid, to, 0)

    def stamp(self, pid, event, is_told):
        me = machine.show(pid)
        if self.world.of[pid].last != event.prev:
            self.act("clear", me)
            self.act("set", me, "label", event.label)
        is_sent = event.kind == "send"
        flags = is_told and is_sent, (pid, event.this) in self.told.received, is_told and not is_sent
        self.act("restore", me, event.label, *(str(flag).lower() for flag in flags), 0, 0, me)
        self.act(event.kind, me, *([machine.show(event.to)] if is_sent else []), event.value)


def silent_needed(streams):
    """With how few silent processes the streams have a run without a reset, or None if they have none with as many as are
    tried."""
    try:
        told = Told(streams)
        ways, needed = ways_of_all(told)
    except NoRun:
        return None
    if needed > MOST_SILENT:
        return None
    shown = machine.verdict({**streams, **{pid: [] for pid in SILENT}}, Acts(told, ways).acts)
    assert shown[0] == "yes", (streams, shown)
    return needed
