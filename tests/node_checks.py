#!/usr/bin/env python3
"""Compares `seqtool check --node`, or gemshowal's, with the slow model of a standard node on random bundles.

    node_checks.py PROGRAM COUNT [FIRST]

Each number from FIRST (1) on makes a random run of the node, in which tokens are put back, also
with counts about to wrap, components are set on no token, and nodes are reset; for gemshowal also
spawns end, which only a text of version 3 has. It makes five bundles: the run as it is, with its
acts tampered with, with an event changed, with one dropped, and with its last acts dropped. The
program must say just what the model says. Of 100 numbers or more each verdict must have come."""

import json
import random
import subprocess
import sys
from collections import Counter
from concurrent.futures import ThreadPoolExecutor
from dataclasses import replace
from pathlib import Path

sys.dont_write_bytecode = True
TESTS = Path(__file__).resolve().parent
sys.path[1:1] = [str(TESTS), str(TESTS.parent / "erlang/conformance")]

import machine  # noqa: E402
from random_runs import LABELS, Run, model, text  # noqa: E402

ENOUGH = 100
OUTCOMES = ("yes", "no differs", "no left")
RULES = list(machine.RULES.values())
# Counts of tokens that are put back: small ones, and those around which a signed serial, a serial
# and a counter wrap.
COUNTS = [0, 1, 2, 7] + [2**bits - less for bits in (59, 60, 64) for less in (3, 2, 1)] + [2**59, 2**60]


def unsigned(event):
    """The event with its counts from 0 to 2^60 - 1."""
    return replace(event, prev=event.prev % machine.SERIAL, this=event.this % machine.SERIAL)


def step(world, acts, number):
    """Does the act of this number, and returns its report, None if it has none."""
    word, pid, *rest = acts[number]
    if word == "answer":
        one = world.of[model.parse_pid(pid)]
        return answer(one, lambda: step(world, acts[:number] + [["receive", pid, "place", *rest]], number))
    reports = machine.do_act(world, acts, number, RULES)[1]
    return unsigned(reports[0]) if reports else None


def answer(one, receive):
    """The end of a spawn: a receive that leaves the token, and sets both counts if the message has one."""
    kept, waiting = replace(one), list(one.queue)
    report = receive()
    one.token, one.clock, one.last = kept.token, kept.clock, kept.last
    taken = next((message for message, left in zip(waiting, [*one.queue, None]) if message is not left), None)
    if taken and taken[2]:
        one.clock = 16 * taken[2].this + 15
        one.last = one.clock % machine.SERIAL
    return report


class NodeRun(Run):
    """A run of the node with the acts so far and what they reported."""

    def act(self, word, pid, *rest):
        if not self.acts:
            self.world, self.held = machine.World(self.pids), []
        if word == "restore":
            prev, this = self.chosen.choice(self.held + [(0, 0), (self.count(), self.count())])
            rest = (*rest[:4], prev, this, rest[6])
        self.acts.append([word, model.show(pid), *map(str, rest)])
        report = step(self.world, self.acts, len(self.acts) - 1)
        token = self.world.of[pid].token
        if token:
            self.held.append((token.prev, token.this))
        if report:
            self.streams[report.actor()].append(report)

    def count(self):
        return self.chosen.choice(COUNTS)


class SpawnRun(NodeRun):
    """One in which spawns end, too: that takes any message."""

    def any_act(self):
        super().any_act()
        if self.chosen.random() < 0.2:
            self.act("answer", self.chosen.choice(self.pids), self.chosen.choice([0, 0, 0, 1]))


def verdict(streams, acts):
    """What the model says of the bundle."""
    world, passed = machine.World(streams), dict.fromkeys(streams, 0)
    for number in range(len(acts)):
        if report := step(world, acts, number):
            pid = report.actor()
            if streams[pid][passed[pid]:passed[pid] + 1] != [report]:
                return f"no differs {number}"
            passed[pid] += 1
    left = [pid for pid in streams if passed[pid] < len(streams[pid])]
    return f"no left {model.show(left[0])}" if left else "yes"


def changed(chosen, streams):
    """The streams with a count or the value of an event one higher."""
    named = [(pid, i) for pid, events in streams.items() for i in range(len(events))]
    if not named:
        return streams
    pid, i = chosen.choice(named)
    field = chosen.choice(["prev", "this", "value"])
    event = streams[pid][i]
    other = replace(event, **{field: getattr(event, field) + 1})
    return streams | {pid: streams[pid][:i] + [other] + streams[pid][i + 1:]}


def lacking(chosen, streams):
    """The streams without one of their last events."""
    some = [pid for pid, events in streams.items() if events]
    if not some:
        return streams
    pid = chosen.choice(some)
    return streams | {pid: streams[pid][:-1]}


def bundles(number, kind):
    """The bundles of a number, each as its streams and its acts."""
    chosen = random.Random(number)
    run = kind(chosen, number % 2 == 0)
    yield run.streams, run.acts
    yield run.streams, run.tampered()
    yield changed(chosen, run.streams), run.acts
    yield lacking(chosen, run.streams), run.acts
    yield run.streams, run.acts[:chosen.randint(1, len(run.acts))]


def ask_seqtool(program, streams, acts):
    """Asks seqtool about a bundle: the status, the words, and the text that it got."""
    given = text(model.write(streams, acts)).encode()
    done = subprocess.run([program, "check", "--node"], input=given, capture_output=True, check=False)
    return done.returncode, done.stdout.decode().rstrip("\n"), given


def ask_gemshowal(program, streams, acts):
    """Asks gemshowal about a bundle in a text of version 3."""
    shown = {pid: [replace(event, prev=machine.signed(event.prev), this=machine.signed(event.this)) for event in events]
             for pid, events in streams.items()}
    given = text(["seqtrace 3", *list(model.write(shown, acts))[1:]]).encode()
    done = subprocess.run([program, "--json", "check", "--node"], input=given, capture_output=True, check=False)
    said = json.loads(done.stdout or '{"result": "nothing"}')
    if said["result"] == "yes":
        return done.returncode, "yes", given
    place = f"left {said.get('process')}" if said.get("act") is None else f"differs {said['act']}"
    return done.returncode, f"{said['result']} {place}", given


def compare(program, number):
    """The verdicts of the bundles of a number, which the program gave too."""
    has_spawns = Path(program).name == "gemshowal"
    kind, ask = (SpawnRun, ask_gemshowal) if has_spawns else (NodeRun, ask_seqtool)
    said = []
    for streams, acts in bundles(number, kind):
        if has_spawns:
            streams = {pid: list(map(unsigned, events)) for pid, events in streams.items()}
        wanted = verdict(streams, acts)
        status, got, given = ask(program, streams, acts)
        assert (status, got) == (int(wanted != "yes"), wanted), (number, given.decode(), wanted, status, got)
        said.append("yes" if wanted == "yes" else " ".join(wanted.split()[:2]))
    return said


def main(program, count, first=1):
    numbers = range(int(first), int(first) + int(count))
    counted = Counter()
    with ThreadPoolExecutor() as compared:
        for said in compared.map(lambda number: compare(program, number), numbers):
            counted.update(said)
    never = [outcome for outcome in OUTCOMES if not counted[outcome]]
    assert len(numbers) < ENOUGH or not never, f"no bundle got {never}"
    print(f"{counted.total()} bundles of {len(numbers)} runs of a standard node: {dict(counted.most_common())}")


if __name__ == "__main__":
    main(*sys.argv[1:])
