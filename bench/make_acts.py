#!/usr/bin/env python3
"""Writes the text of a bundle of acts without events, the same at each run. A replay makes of it the bundles that the
measurements take.

    make_acts.py [--processes N] [--nodes N] [--labels N] [--acts N] [--random [--reported]] [FLAG ..]

N processes on N nodes make N acts: they send, receive and print under one trace each; FLAG is send, receive or print,
and says what is reported. An eighth of the acts looks at the token; with --labels it gives the token another label, one
of N. With --random they make acts of all kinds, by all wants; with --reported too only such by which each stamp is
reported, so that an audit accepts their streams."""

import argparse
import itertools
import sys

# Which random acts are made, and how often: as many are sent as received, and little is reset, so that queues are short
# and most processes have a token. The numbers in braces are drawn.
RANDOM_ACTS = {
    "send {me} {pid} {value}": 280,
    "receive {me} first": 200,
    "receive {me} from {pid}": 60,
    "receive {me} value {value}": 60,
    "receive {me} both {pid} {value}": 30,
    "receive {me} place {place}": 30,
    "print {me} {value}": 80,
    "printat {me} {label} {value}": 40,
    "set {me} label {label}": 20,
    "set {me} send {truth}": 15,
    "set {me} receive {truth}": 15,
    "set {me} print {truth}": 15,
    "clear {me}": 10,
    "look {me}": 15,
    "restore {me} {label} {truth} true true {value} {value} {pid}": 150,
    "tracer {me} true": 8,
    "tracer {me} false": 1,
    "reset {me}": 1,
}
# How those begin by which a stamp isn't reported, or counts start anew.
HIDING_ACTS = ("set", "tracer", "reset")
VALUES, LABELS, PLACES = 16, 8, 4


def numbers(seed):
    """Pseudorandom numbers of 32 bits, by a linear congruence."""
    while True:
        seed = (seed * 6364136223846793005 + 1442695040888963407) % 2**64
        yield seed >> 32


def opening(pids, leaders, labels, flags):
    """A tracer for each node, which its leader sets, and a trace for each process."""
    yield from (f"tracer {pid} true" for pid in leaders)
    for place, pid in enumerate(pids):
        yield f"set {pid} label {place % labels if labels else 17 + place}"
        for flag in flags:
            yield f"set {pid} {flag} true"


def acts(pids, labels):
    """Sends, receives of the first message, and prints."""
    given = numbers(2026)
    queued = [0] * len(pids)
    while True:
        actor = next(given) % len(pids)
        kind = next(given) % 8
        if kind < 3 or (kind < 6 and queued[actor] == 0):
            receiver = next(given) % len(pids)
            queued[receiver] += 1
            yield f"send {pids[actor]} {pids[receiver]} {next(given) % 65536}"
        elif kind < 6:
            queued[actor] -= 1
            yield f"receive {pids[actor]} first"
        elif kind == 6:
            yield f"print {pids[actor]} {next(given) % 65536}"
        elif labels:
            yield f"set {pids[actor]} label {next(given) % labels}"
        else:
            yield f"look {pids[actor]}"


def random_acts(pids, are_reported):
    """Acts of all kinds, or of those by which all stamps are reported."""
    given = numbers(2026)
    left_out = HIDING_ACTS if are_reported else ()
    kinds = [kind for kind, times in RANDOM_ACTS.items() if not kind.startswith(left_out) for _ in range(times)]
    for me, kind, pid, drawn in zip(given, given, given, given):
        yield kinds[kind % len(kinds)].format(
            me=pids[me % len(pids)], pid=pids[pid % len(pids)], value=drawn % VALUES, label=(drawn >> 8) % LABELS,
            place=(drawn >> 16) % PLACES, truth="true" if are_reported or drawn >> 24 & 3 else "false")


def main():
    reader = argparse.ArgumentParser()
    reader.add_argument("--processes", type=int, default=64)
    reader.add_argument("--nodes", type=int, default=2)
    reader.add_argument("--labels", type=int, default=0)
    reader.add_argument("--acts", type=int, default=1_000_000)
    reader.add_argument("--random", action="store_true")
    reader.add_argument("--reported", action="store_true")
    reader.add_argument("flags", nargs="*", default=["receive", "print"])
    words = reader.parse_args()
    nodes = [1 + n * words.nodes // words.processes for n in range(words.processes)]
    pids = [f"<{node}.{1000 + n}.0>" for n, node in enumerate(nodes)]
    leaders = [pid for n, pid in enumerate(pids) if n == 0 or nodes[n] != nodes[n - 1]]
    made = itertools.chain(opening(pids, leaders, words.labels, words.flags),
                           random_acts(pids, words.reported) if words.random else acts(pids, words.labels))
    out = sys.stdout
    out.write("seqtrace 2\n")
    out.writelines(f"process {pid}\n" for pid in pids)
    out.write("acts\n")
    out.writelines(f"{act}\n" for act in itertools.islice(made, words.acts))


main()
