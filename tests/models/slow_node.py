"""A standard node, and what its traces say: a slow model of the laws of crates/node_machine and of the judges above it.

A counter has 64 bits. A serial shows the lowest 60 of them, here as the number from 0 to 2^60 - 1 with those bits."""

import itertools
from collections import Counter, defaultdict, deque, namedtuple

COUNTER, SERIAL = 2**64, 2**60

# kind: send, receive, answer or print; an answer is the receive by which `spawn` gets its reply.
Event = namedtuple("Event", "kind label prev this sender to value")
# Its origin is the index of the receive by which its process got it, or `None` if the process made it.
Token = namedtuple("Token", "label prev this origin")


def is_receive(event):
    return event.kind in ("receive", "answer")


def answer_count(this):
    return 16 * this + 15


def signed(count):
    return count if count < SERIAL // 2 else count - SERIAL


# ---- the judge


def content(event):
    return event._replace(kind=None)


def sources(streams):
    """The place of each receive's send: alike messages are taken in order. None if no send is left."""
    sends = defaultdict(deque)
    for pid, events in sorted(streams.items()):
        for i, event in enumerate(events):
            if event.kind == "send":
                sends[content(event)].append((pid, i))
    found = {}
    for pid, events in sorted(streams.items()):
        for i, event in enumerate(events):
            if is_receive(event):
                left = sends[content(event)]
                found[pid, i] = left.popleft() if left else None
    return found


def waits(streams, source):
    """The first receives that no order of the events reaches after their sends, by process."""
    done, moved = Counter(), True
    while moved:
        moved = False
        for pid, events in streams.items():
            while done[pid] < len(events):
                sent = source.get((pid, done[pid]))
                if sent and done[sent[0]] <= sent[1]:
                    break
                done[pid] += 1
                moved = True
    return [(pid, done[pid]) for pid, events in sorted(streams.items()) if done[pid] < len(events)]


def tokens_of(event):
    if event.kind == "answer":
        return [(answer_count(event.this) % SERIAL, 0)]
    shown = [(event.prev, event.this), (event.prev, 0)]
    return shown + [(event.this, 0)] if event.kind == "receive" else shown


def clock_behind(clock, taken):
    for event in taken:
        clock = answer_count(event.this) if event.kind == "answer" else max(clock, event.this)
    return clock


def ways(events):
    """For each stamp of one process `plain`, `put back` (a token of its own gives it) or `ungiven`."""
    clocks, last, held, taken, found = {0}, 0, {(0, 0)}, [], {}
    for i, event in enumerate(events):
        if is_receive(event):
            taken.append(event)
            last = answer_count(event.this) % SERIAL if event.kind == "answer" else event.this
        else:
            go_on = {clock_behind(it, taken) for it in clocks}
            go_on = {it for it in go_on if (event.prev, event.this) == (last, (it + 1) % SERIAL)}
            found[i] = "plain" if go_on else "put back" if is_from_put_back(held, taken, event, events, i) else "ungiven"
            clocks = {(it + 1) % COUNTER for it in go_on} | {event.this or SERIAL}
            last, taken = event.prev, []
        held |= set(tokens_of(event))
    return found


def is_from_put_back(held, taken, event, events, i):
    """Whether a token that was held, put back after the last stamp and before only receives, leads to the stamp."""
    if any((event.prev, event.this) == (prev, (this + 1) % SERIAL) for prev, this in held):
        return True
    for n in range(1, len(taken) + 1):
        back = taken[-n:]
        if back[0].kind == "answer":
            return False
        front = {(0, 0)} | {token for earlier in events[:i - n] for token in tokens_of(earlier)}
        if back[-1].this == event.prev and any(event.this == (clock_behind(this, back) + 1) % SERIAL for _, this in front):
            return True
    return False


Judged = namedtuple("Judged", "unsent cycle put_backs ungiven")


# The cause of an event: the kind of hop, the place that it names, and the premises that it rests on.
Hop = namedtuple("Hop", "kind place premises")


def hop(streams, source, place):
    """The hop back from an event, as crates/node_hops defines it, but that a process's message to itself isn't one that it
    sent later; what has moved names the event since which that was."""
    pid, i = place
    events, event = streams[pid], streams[pid][i]
    if is_receive(event):
        sent = source[place]
        return Hop("after", sent, [4]) if sent and (sent[0] != pid or sent[1] < i) else Hop("unsent", None, [])
    start = i
    while start and not is_receive(events[start - 1]) and events[start - 1].prev == event.prev:
        start -= 1
    before = (pid, start - 1) if start else None
    if before and is_receive(events[start - 1]) and events[start - 1].this == event.prev:
        return Hop("after", before, [1, 2, 3]) if events[start - 1].label == event.label else Hop("other_label", before, [1, 2])
    return Hop("begins", None, [1, 2]) if not start and event.prev == 0 else Hop("moved", before, [])


def may_tokens_tell(events, i):
    """Whether a stamp of one process may follow what the tokens tell that it had, and not what its hop says."""
    since = max((at + 1 for at in range(i) if events[at].kind == "receive"), default=0)
    return hop({0: events}, {}, (0, i)).kind == "moved" or "put back" in [way for at, way in ways(events).items() if since <= at <= i]


def judge(streams):
    source = sources(streams)
    places = {(pid, i): way for pid, events in sorted(streams.items()) for i, way in ways(events).items()}
    return Judged([it for it, sent in sorted(source.items()) if sent is None], waits(streams, source),
                  [it for it, way in places.items() if way == "put back"], [it for it, way in places.items() if way == "ungiven"])


# ---- runs

# A process that spawns so often under its token has counts above those that a serial shows.
WRAPS = 16
MOST_PROCESSES = 24


class Process:
    def __init__(self):
        self.clock = self.last = 0
        self.token, self.queue, self.saved, self.events = None, deque(), [], []
        # The origin of each stamp's token, by index.
        self.origins = {}
        # How many events came before each act that moves the counters unseen, and before each that makes a token.
        self.moved, self.made = [], []

    def make(self, label):
        self.token = Token(label, self.last, 0, None)
        self.made.append(len(self.events))


class Node:
    """A run of random acts, whose tokens have all flags."""

    def __init__(self, rng, has_own_labels=False):
        self.rng, self.processes, self.value = rng, {}, 0
        self.labels = itertools.count() if has_own_labels else None
        self.born()

    def label(self):
        return next(self.labels) if self.labels else self.rng.randrange(3)

    def born(self):
        process = self.processes[30 + len(self.processes)] = Process()
        return process

    def report(self, pid, kind, token, sender, to, value):
        self.processes[pid].events.append(Event(kind, token.label, token.prev, token.this, sender, to, value))

    def stamp(self, process):
        process.token = process.token._replace(prev=process.last, this=(process.clock + 1) % SERIAL)
        process.clock = (process.clock + 1) % COUNTER
        process.saved.append(process.token)
        process.origins[len(process.events)] = process.token.origin

    def send(self, pid, to):
        process = self.processes[pid]
        if process.token:
            self.stamp(process)
            self.value += 1
            self.report(pid, "send", process.token, pid, to, self.value)
            self.processes[to].queue.append((pid, process.token, self.value))

    def print(self, pid):
        process = self.processes[pid]
        self.stamp(process)
        self.value += 1
        self.report(pid, "print", process.token, pid, None, self.value)

    def receive(self, pid):
        process = self.processes[pid]
        sender, token, value = process.queue.popleft()
        token = token._replace(origin=len(process.events))
        process.token, process.clock, process.last = token, max(process.clock, token.this), token.this
        process.saved.append(token)
        self.report(pid, "receive", token, sender, pid, value)

    def spawn(self, pid):
        """A process that is spawned reports the receive of the request and the send of the reply first."""
        process, child = self.processes[pid], self.born()
        born = max(self.processes)
        if process.token:
            self.send(pid, born)
            self.receive(born)
            self.send(born, pid)
            sender, token, value = process.queue.pop()
            process.clock, process.last = answer_count(token.this) % COUNTER, answer_count(token.this) % SERIAL
            process.moved.append(len(process.events))
            self.report(pid, "answer", token, sender, pid, value)
        return child

    def put_back(self, pid, token):
        process = self.processes[pid]
        process.token, process.clock, process.last = token, token.this, token.prev
        process.moved.append(len(process.events))

    def act(self, pid, hands_over):
        process, rng = self.processes[pid], self.rng
        chance = rng.random()
        if process.queue and chance < 0.35:
            self.receive(pid)
        elif chance < 0.45 and len(self.processes) < MOST_PROCESSES:
            self.spawn(pid)
        elif chance < 0.52 and process.saved:
            self.put_back(pid, rng.choice(process.saved))
        elif chance < 0.55 and hands_over:
            saved = [token for other in self.processes.values() for token in other.saved]
            if saved:
                self.put_back(pid, rng.choice(saved))
        elif not process.token:
            process.make(self.label())
        elif chance < 0.6:
            process.token = None
        elif chance < 0.7:
            self.print(pid)
        else:
            self.send(pid, rng.choice(list(self.processes)))


def run(node, acts, hands_over):
    rng = node.rng
    if rng.random() < 0.5:
        first = min(node.processes)
        node.processes[first].make(node.label())
        for _ in range(WRAPS):
            for _ in range(rng.randrange(9)):
                node.print(first)
            node.spawn(first)
    for _ in range(acts):
        node.act(rng.choice(list(node.processes)), hands_over)
    return node


def origins_of(rng, acts):
    """The streams of a run in which each token that is made has a label of its own, its processes, and the origin of each
    stamp."""
    node = run(Node(rng, has_own_labels=True), acts, hands_over=False)
    streams = {pid: process.events for pid, process in node.processes.items()}
    origins = {(pid, i): origin for pid, process in node.processes.items() for i, origin in process.origins.items()}
    return streams, node.processes, origins


def streams_of(rng, acts, hands_over, lossy):
    """The streams of a run; of a lossy one, some events are left out, doubled or exchanged."""
    node = run(Node(rng), acts, hands_over)
    streams = {pid: process.events for pid, process in node.processes.items()}
    for _ in range(rng.randint(1, 3) if lossy else 0):
        events = rng.choice([it for it in streams.values() if it] or [[]])
        if len(events) > 1:
            i = rng.randrange(len(events) - 1)
            events[i:i + 2] = rng.choice(([events[i]], [events[i + 1], events[i]], [events[i], events[i], events[i + 1]]))
    return streams


def text(streams):
    """The text of version 3."""
    lines = ["seqtrace 3"]
    for pid, events in sorted(streams.items()):
        lines.append(f"process <0.{pid}.0>")
        for it in events:
            kind = "'receive'" if it.kind == "receive" else it.kind
            to = f"<0.{it.to}.0>" if it.to else "[]"
            lines.append(f"{{seq_trace,{it.label},{{{kind},{{{signed(it.prev)},{signed(it.this)}}},<0.{it.sender}.0>,{to},{it.value}}}}}")
    return "\n".join(lines) + "\n"
