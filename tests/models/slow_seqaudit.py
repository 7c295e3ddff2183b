#!/usr/bin/env python3
"""A slow auditor, checker and chart printer: a test model, made by the rules and not by the program.

    slow_seqaudit.py audit | check | chart --label N    < BUNDLE

It writes what `seqaudit` writes, in the same words and with the same status, for every text that is
a bundle. It has no limits and names the refusals of the reader only as `fault line N`.
"""

import re
import signal
import sys
from dataclasses import dataclass, field, replace

TOP = 2**64 - 1
NO_FLAGS = (False, False, False)


# Bundles

@dataclass(frozen=True)
class Event:
    label: int
    kind: str
    prev: int
    this: int
    sender: tuple
    to: tuple | None
    value: int

    def actor(self):
        return self.to if self.kind == "receive" else self.sender

    def __str__(self):
        kind = "'receive'" if self.kind == "receive" else self.kind
        to = show(self.to) if self.to else "[]"
        return f"{{seq_trace,{self.label},{{{kind},{{{self.prev},{self.this}}},{show(self.sender)},{to},{self.value}}}}}"


class NotABundle(Exception):
    """The number of the first line that no bundle has there."""


NUMBER = r"(0|[1-9][0-9]*)"
PID = rf"<{NUMBER}\.{NUMBER}\.0>"
PROCESS = re.compile(rf"process {PID}")
EVENT = re.compile(rf"\{{seq_trace,{NUMBER},\{{(send|'receive'|print),"
                   rf"\{{{NUMBER},{NUMBER}\}},{PID},(?:{PID}|\[\]),{NUMBER}\}}\}}")


def show(pid):
    return f"<{pid[0]}.{pid[1]}.0>"


def read(text):
    """The streams of a bundle, a list of events for each process, and its acts, None without them."""
    lines = text.split("\n")
    if lines[-1] or lines[0] not in ("seqtrace 1", "seqtrace 2"):
        raise NotABundle(1)
    streams, acts = {}, None
    for number, line in enumerate(lines[1:-1], 2):
        if acts is not None:
            acts.append(line.split(" "))
        elif line == "acts":
            acts = []
        elif found := PROCESS.fullmatch(line):
            pid = int(found[1]), int(found[2])
            if streams and pid <= max(streams):
                raise NotABundle(number)
            streams[pid] = []
        elif (found := EVENT.fullmatch(line)) and streams:
            word = found.groups()
            to = (int(word[6]), int(word[7])) if word[6] else None
            streams[pid].append(Event(int(word[0]), word[1].strip("'"), int(word[2]), int(word[3]),
                                      (int(word[4]), int(word[5])), to, int(word[8])))
        else:
            raise NotABundle(number)
    return streams, acts


def write(streams, acts):
    """The text of a bundle, with acts or without (None), line by line."""
    yield f"seqtrace {2 if any(node for node, _ in streams) else 1}"
    for pid, events in streams.items():
        yield f"process {show(pid)}"
        yield from map(str, events)
    if acts is not None:
        yield from write_acts(acts)


def write_acts(acts):
    yield "acts"
    yield from (" ".join(act) for act in acts)


# The machine

@dataclass(frozen=True)
class Token:
    label: int
    flags: tuple
    prev: int
    this: int
    sender: tuple


@dataclass
class Process:
    token: Token | None = None
    clock: int = 0
    last: int = 0
    traced: bool = False
    queue: list = field(default_factory=list)


class Stuck(Exception):
    """The act has no step."""


class World:
    """All processes, stepped by acts that are lists of words as the text form spells them."""

    def __init__(self, pids):
        self.of = {pid: Process() for pid in pids}

    def step(self, act, number=0):
        """Does the act. Returns what it reports, or None, and the number of the send that a receive took."""
        actor = parse_pid(act[1])
        if actor not in self.of:
            raise Stuck
        one, word, rest = self.of[actor], act[0], act[2:]
        if word == "send":
            return self.send(actor, parse_pid(rest[0]), int(rest[1]), number), None
        if word == "receive":
            return self.receive(actor, rest)
        if word in ("print", "printat"):
            if word == "printat" and (not one.token or one.token.label != int(rest[0])):
                return None, None
            return self.stamp(actor, "print", None, int(rest[-1])), None
        if word == "set":
            if not one.token:
                one.token, one.last = Token(0, NO_FLAGS, 0, 0, actor), one.clock
            one.token = set_component(one.token, *rest)
        elif word == "clear":
            one.token = None
        elif word == "restore":
            flags = tuple(flag == "true" for flag in rest[1:4])
            one.token = Token(int(rest[0]), flags, int(rest[4]), int(rest[5]), parse_pid(rest[6]))
        elif word == "reset":
            for other in self.on_node_of(actor):
                other.token, other.clock, other.last = None, 0, 0
                other.queue = [(sender, value, None, sent) for sender, value, _, sent in other.queue]
        elif word == "tracer":
            for other in self.on_node_of(actor):
                other.traced = rest[0] == "true"
        return None, None

    def on_node_of(self, actor):
        return [one for pid, one in self.of.items() if pid[0] == actor[0]]

    def stamp(self, actor, kind, to, value):
        """A send's or a print's part at the actor, and its report."""
        one = self.of[actor]
        if not one.token:
            return None
        if one.clock == TOP:
            raise Stuck
        one.clock += 1
        one.token = replace(one.token, prev=one.last, this=one.clock, sender=actor)
        return self.report(one, kind, one.token, to, value)

    def send(self, actor, to, value, number):
        if to not in self.of:
            raise Stuck
        report = self.stamp(actor, "send", to, value)
        self.of[to].queue.append((actor, value, self.of[actor].token, number))
        return report

    def receive(self, actor, want):
        one = self.of[actor]
        place = next((k for k, (sender, value, _, _) in enumerate(one.queue)
                      if is_wanted(want, k, sender, value)), None)
        if place is None:
            return None, None
        _, value, one.token, sent = one.queue.pop(place)
        if not one.token:
            return None, sent
        one.last, one.clock = one.token.this, max(one.clock, one.token.this)
        return self.report(one, "receive", one.token, actor, value), sent

    @staticmethod
    def report(one, kind, token, to, value):
        if one.traced and token.flags[("send", "receive", "print").index(kind)]:
            return Event(token.label, kind, token.prev, token.this, token.sender, to, value)
        return None

    def place_of(self, pid, sender, this):
        """The place in the queue of the first message with that stamp."""
        return next((k for k, (_, _, token, _) in enumerate(self.of[pid].queue)
                     if token and (token.sender, token.this) == (sender, this)), None)


def parse_pid(word):
    found = re.fullmatch(PID, word)
    return int(found[1]), int(found[2])


def set_component(token, name, given):
    if name == "label":
        return replace(token, label=int(given))
    place = ("send", "receive", "print").index(name)
    return replace(token, flags=tuple(given == "true" if k == place else flag
                                      for k, flag in enumerate(token.flags)))


def is_wanted(want, place, sender, value):
    match want:
        case ["first"]:
            return True
        case ["from", pid]:
            return parse_pid(pid) == sender
        case ["value", number]:
            return int(number) == value
        case ["both", pid, number]:
            return parse_pid(pid) == sender and int(number) == value
        case ["place", number]:
            return int(number) == place


def verdict(streams, acts):
    """Whether the acts show the streams: `yes` and the pairs, or why not, as a list of words."""
    world, passed, pairs = World(streams), dict.fromkeys(streams, 0), []
    for number, act in enumerate(acts):
        try:
            report, sent = world.step(act, number)
        except Stuck:
            return ["stuck", str(number)]
        if report:
            pid = report.actor()
            if streams[pid][passed[pid]:passed[pid] + 1] != [report]:
                return ["differs", str(number)]
            passed[pid] += 1
            if report.kind == "receive":
                pairs.append((number, sent))
    left = [pid for pid in streams if passed[pid] < len(streams[pid])]
    return ["left", show(left[0])] if left else ["yes", pairs]


# Pairing

class Unfit(Exception):
    """A reason: its word, its place, the other place or None, and more for a certificate that fails."""

    def __init__(self, word, place, other=None, acts=None, why=()):
        super().__init__(word)
        self.word, self.place, self.other, self.acts, self.why = word, place, other, acts, why


def places(streams):
    return [((pid, i), event) for pid, events in streams.items() for i, event in enumerate(events)]


def pair(streams):
    """For each receive the place of its send, None where that is hidden. Or the first reason against it."""
    for place, event in places(streams):
        if event.prev >= event.this:
            raise Unfit("prevnotbefore", place)
    for (pid, i), event in places(streams):
        earlier = [j for j in range(i) if streams[pid][j].kind != "receive"]
        if event.kind != "receive" and any(streams[pid][j].this >= event.this for j in earlier):
            raise Unfit("notrising", (pid, i), (pid, earlier[-1]))
    receives = [(place, event) for place, event in places(streams) if event.kind == "receive"]
    first = {}
    for place, event in receives:
        if first.setdefault((event.sender, event.this), place) != place:
            raise Unfit("repeated", place, first[event.sender, event.this])
    stamped = {(pid, event.this): ((pid, i), event)
               for (pid, i), event in places(streams) if event.kind != "receive"}
    source = {}
    for place, event in receives:
        sent, send = stamped.get((event.sender, event.this), (None, None))
        if send and send != replace(event, kind="send"):
            raise Unfit("mismatch", place, sent)
        source[place] = sent
    return source


# Order. An item is ("reported", place) or ("hidden", place of its receive).

def order(streams, source):
    keyed = []
    for pid, events in streams.items():
        height = 0
        for i, event in enumerate(events):
            height = max(height, event.this)
            keyed.append(((height, int(event.kind == "receive"), pid, i + 1), ("reported", (pid, i))))
    for place, sent in source.items():
        if sent is None:
            event = streams[place[0]][place[1]]
            keyed.append(((event.this, 0, event.sender, 0), ("hidden", place)))
    return [item for _, item in sorted(keyed)]


def event_of(streams, item):
    """The item's event; of a hidden send the send that its receive tells of."""
    kind, (pid, i) = item
    return replace(streams[pid][i], kind="send") if kind == "hidden" else streams[pid][i]


# The auditor's construction

class Stop(Exception):
    """The construction goes no further."""


SKIP_ONCE, SKIP_ALL = 1_000, 1_000_000


class Builder:
    """The acts so far, and the world that they lead to."""

    def __init__(self, streams, source):
        self.streams, self.received = streams, set(source.values())
        self.world, self.acts, self.skipped = World(streams), [], 0
        self.done = dict.fromkeys(streams, 0)
        if any(streams.values()):
            for node in sorted({node for node, _ in streams}):
                least = min(pid for pid in streams if pid[0] == node)
                self.act("tracer", show(least), "true")

    def act(self, *words):
        self.acts.append(list(words))
        try:
            return self.world.step(self.acts[-1])[0]
        except Stuck:
            raise Stop from None

    def dress(self, pid, label, flags):
        token = self.world.of[pid].token
        if not token or (token.label, token.flags) != (label, flags):
            self.act("restore", show(pid), str(label), *(str(flag).lower() for flag in flags), "0", "0", show(pid))

    def pad(self, pid, label, count):
        """As many quiet prints."""
        if count > 0:
            self.dress(pid, label, NO_FLAGS)
            for _ in range(count):
                self.act("print", show(pid), "0")

    def item(self, item):
        event, (kind, (pid, i)) = event_of(self.streams, item), item
        if kind == "reported" and i != self.done[pid]:
            raise Stop
        report = self.receive(event) if event.kind == "receive" else self.stamp(item, event)
        if kind == "reported":
            self.done[pid] += 1
            if report != event:
                raise Stop

    def receive(self, event):
        place = self.world.place_of(event.to, event.sender, event.this)
        if place is None:
            raise Stop
        return self.act("receive", show(event.to), "place", str(place))

    def stamp(self, item, event):
        """Brings the sender's clock and last to where the event has them, and does the send or print."""
        kind, place = item
        one = self.world.of[event.sender]
        if event.prev != one.last and event.prev < one.clock:
            raise Unfit("uncaused", place)
        skips = max(0, event.this - 1 - one.clock)
        if skips > SKIP_ONCE or self.skipped + skips > SKIP_ALL:
            raise Unfit("toowide", place)
        self.skipped += skips
        if event.prev != one.last:
            self.pad(event.sender, event.label, event.prev - one.clock)
            self.act("clear", show(event.sender))
            self.act("set", show(event.sender), "label", str(event.label))
        self.pad(event.sender, event.label, event.this - 1 - one.clock)
        if event.kind == "print":
            self.dress(event.sender, event.label, (False, False, True))
            return self.act("print", show(event.sender), str(event.value))
        seen = kind == "reported"
        self.dress(event.sender, event.label, (seen, not seen or place in self.received, False))
        return self.act("send", show(event.sender), show(event.to), str(event.value))


def audit(streams):
    """The acts that explain the streams, or Unfit."""
    source = pair(streams)
    items, place = order(streams, source), None
    builder = Builder(streams, source)
    try:
        for item in items:
            place = item[1]
            builder.item(item)
    except Stop:
        pass
    answer = verdict(streams, builder.acts)
    if answer[0] != "yes":
        raise Unfit("notreplayed", place, None, builder.acts, answer)
    return builder.acts


# The output

def report(streams, unfit):
    words = ["unfit", show(unfit.place[0]), str(unfit.place[1]), unfit.word]
    named = [unfit.place] + ([unfit.other] if unfit.other else [])
    if unfit.other:
        words += [show(unfit.other[0]), str(unfit.other[1])]
    yield " ".join([*words, *unfit.why])
    for pid, i in named:
        yield f"event {show(pid)} {i} {streams[pid][i]}"
    if unfit.acts is not None:
        yield from write_acts(unfit.acts)


def cause(streams, source, item):
    kind, (pid, i) = item
    event = event_of(streams, item)
    if kind == "hidden":
        return "unseen"
    if event.kind == "receive":
        return f"after {show(source[pid, i][0])} {source[pid, i][1]}" if source[pid, i] else "after hidden"
    for j in reversed(range(i)):
        if streams[pid][j].kind == "receive" and streams[pid][j].this == event.prev:
            return f"after {show(pid)} {j}"
    return "start"


def mark(pid, item, event):
    if pid == event.actor():
        return "H" if item[0] == "hidden" else event.kind[0].upper()
    return "." if pid in (event.sender, event.to) else "|"


def chart(streams, label):
    """The lines of the chart, or none where no item has the label."""
    source = pair(streams)
    items = [item for item in order(streams, source) if event_of(streams, item).label == label]
    if not items:
        return
    events = [event_of(streams, item) for item in items]
    lanes = sorted({pid for event in events for pid in (event.sender, event.to) if pid})
    yield f"label {label}"
    yield from (f"lane {k} {show(pid)}" for k, pid in enumerate(lanes, 1))
    for item, event in zip(items, events):
        marks = "".join(f"{mark(pid, item, event):>4}" for pid in lanes)
        word = "hidden" if item[0] == "hidden" else event.kind
        yield f"{marks}  {word:8} {{{event.prev},{event.this}}} {event.value} {cause(streams, source, item)}"


def answer(words, text):
    """The lines and the status."""
    streams, acts = {}, None
    try:
        streams, acts = read(text)
        match words:
            case ["audit"]:
                return list(write(streams, audit(streams))), 0
            case ["chart", "--label", label]:
                lines = list(chart(streams, int(label)))
                return (lines, 0) if lines else ([f"no label {label}"], 1)
            case ["check"] if acts is None:
                return ["fault no acts"], 2
            case ["check"]:
                said = verdict(streams, acts)
                if said[0] == "yes":
                    return ["yes", *(f"pair {received} {sent}" for received, sent in said[1])], 0
                return [" ".join(["no", *said])], 1
        return ["usage: slow_seqaudit.py audit|check|chart --label N"], 3
    except NotABundle as fault:
        return [f"fault line {fault}"], 2
    except Unfit as unfit:
        return list(report(streams, unfit)), 1


def main():
    # The reader of the output may end first, as `head` does.
    signal.signal(signal.SIGPIPE, signal.SIG_DFL)
    lines, status = answer(sys.argv[1:], sys.stdin.read())
    sys.stdout.writelines(line + "\n" for line in lines)
    sys.exit(status)


if __name__ == "__main__":
    main()
