"""Runs of the slow machine without a reset: what they report, and all that they did."""

import sys
from pathlib import Path

sys.path.insert(0, str(Path(__file__).resolve().parents[2] / "tests/models"))

import slow_seqaudit as machine  # noqa: E402

KINDS = ("send", "receive", "print")  # The flags of a token, in turn.
BEGUN = "begun"


class Run:
    """Processes that do what they are told. `full` has each stamp and each receive of a token, `streams` what was
    reported, `causes` of each stamp what gave it its prev: a message's sender and count, `BEGUN`, or None at the start."""

    def __init__(self, chosen, processes, reported, lost=0.0):
        self.chosen, self.flags, self.lost = chosen, [str(kind in reported).lower() for kind in KINDS], lost
        self.pids = [(0, 10 * (place + 1)) for place in range(processes)]
        self.world, self.causes, self.received = machine.World(self.pids), {}, set()
        self.cause = dict.fromkeys(self.pids)
        self.full, self.streams = {pid: [] for pid in self.pids}, {pid: [] for pid in self.pids}
        self.world.step(["tracer", machine.show(self.pids[0]), "true"])

    def queue(self, pid):
        """The messages that wait, each a sender and a value."""
        return [(sender, value) for sender, value, _, _ in self.world.of[pid].queue]

    def act(self, word, pid, *rest):
        report, _ = self.world.step([word, machine.show(pid), *map(str, rest)])
        if report and self.chosen.random() >= self.lost:
            self.streams[pid].append(report)

    def note(self, kind, pid, to, value):
        """Adds what was done under a token, reported or not."""
        token = self.world.of[pid].token
        if token:
            self.full[pid].append(machine.Event(token.label, kind, token.prev, token.this, token.sender, to, value))
            if kind != "receive":
                self.causes[pid, token.this] = self.cause[pid]

    def send(self, pid, to, value=0):
        self.act("send", pid, machine.show(to), value)
        self.note("send", pid, to, value)

    def print(self, pid, value=0):
        self.act("print", pid, value)
        self.note("print", pid, None, value)

    def receive(self, pid, place=0):
        """The sender of the message at this place."""
        sender, value = self.queue(pid)[place]
        self.act("receive", pid, "place", place)
        token = self.world.of[pid].token
        if token:
            self.cause[pid] = token.sender, token.this
            self.received.add(self.cause[pid])
        self.note("receive", pid, pid, value)
        return sender

    def begin(self, pid, label):
        """A trace of this label, or the label alone if the process has a token."""
        if not self.world.of[pid].token:
            self.cause[pid] = BEGUN
            for kind, flag in zip(KINDS, self.flags):
                self.act("set", pid, kind, flag)
        self.act("set", pid, "label", label)

    def clear(self, pid):
        self.act("clear", pid)


def wild_run(run, steps):
    """Acts without a plan: labels here and there, messages taken out of turn."""
    for _ in range(steps):
        pid, dice = run.chosen.choice(run.pids), run.chosen.random()
        waiting = len(run.queue(pid))
        if dice < 0.38:
            run.send(pid, run.chosen.choice(run.pids), run.chosen.randrange(3))
        elif dice < 0.73 and waiting:
            run.receive(pid, run.chosen.randrange(waiting) if run.chosen.random() < 0.4 else 0)
        elif 0.73 <= dice < 0.84:
            run.print(pid, run.chosen.randrange(3))
        elif 0.84 <= dice < 0.97:
            run.begin(pid, run.chosen.randrange(3))
        elif dice >= 0.97:
            run.clear(pid)


REQUEST, REPLY, CAST = 1, 2, 3  # The values of messages between clients and servers.


class Servers:
    """Clients call servers, which print, call others and reply. A client's call has a label of its own."""

    def __init__(self, run):
        self.run, self.label, self.chosen = run, 0, run.chosen
        half = max(1, len(run.pids) // 2)
        self.clients, self.servers = run.pids[:half], run.pids[half:] or run.pids
        # Whom a client or server waits for, and of a busy server its caller and how many calls it has still to make.
        self.awaited, self.callers, self.calls = {}, {}, {}

    def chance(self, share):
        return self.chosen.random() < share

    def step(self):
        pid = self.chosen.choice(self.run.pids)
        if pid in self.awaited:
            self.take_reply(pid)
        elif pid in self.clients:
            self.call(pid)
        elif pid in self.callers:
            self.serve(pid)
        else:
            self.take_request(pid)

    def place_of(self, pid, is_wanted):
        return next((place for place, message in enumerate(self.run.queue(pid)) if is_wanted(*message)), None)

    def call(self, pid):
        self.label += 1
        if self.chance(0.9):  # Some calls aren't traced.
            self.run.begin(pid, self.label)
        self.awaited[pid] = self.chosen.choice(self.servers)
        self.run.send(pid, self.awaited[pid], REQUEST)

    def take_reply(self, pid):
        place = self.place_of(pid, lambda sender, value: sender == self.awaited[pid] and value == REPLY)
        if place is None:
            return
        self.run.receive(pid, place)
        del self.awaited[pid]
        if pid in self.clients:
            if self.chance(0.3):
                self.run.print(pid)
            self.run.clear(pid)

    def take_request(self, pid):
        place = self.place_of(pid, lambda sender, value: value == REQUEST)
        if place is not None:
            self.callers[pid] = self.run.receive(pid, place)
            self.calls[pid] = self.chosen.choice((0, 0, 1, 1, 2))
            if self.chance(0.3):
                self.run.print(pid)

    def serve(self, pid):
        # Calls go one way, so that nobody waits for ever.
        others = [server for server in self.servers if server > pid]
        if self.calls[pid] and others:
            self.calls[pid] -= 1
            self.awaited[pid] = self.chosen.choice(others)
            self.run.send(pid, self.awaited[pid], REQUEST)
            if self.chance(0.3):
                self.run.send(pid, self.chosen.choice(self.servers), CAST)
        else:
            self.run.send(pid, self.callers.pop(pid), REPLY)
            if self.chance(0.5):
                self.work(pid)
            self.take_cast(pid)

    def work(self, pid):
        """Work of its own, under a label of its own."""
        self.run.clear(pid)
        if self.chance(0.3):
            self.label += 1
            self.run.begin(pid, self.label)
            self.run.send(pid, self.chosen.choice(self.servers), CAST)
            self.run.clear(pid)

    def take_cast(self, pid):
        place = self.place_of(pid, lambda sender, value: value == CAST)
        if place is not None:
            self.run.receive(pid, place)
            if self.chance(0.5):
                self.run.print(pid)


def server_run(run, steps):
    servers = Servers(run)
    for _ in range(steps):
        servers.step()
