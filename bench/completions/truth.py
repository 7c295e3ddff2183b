#!/usr/bin/env python3
"""How near `seqtool complete` comes to what happened, over runs of which all is known:

    bench/completions/truth.py [SEQTOOL [RUNS [SEED]]]

Each row has RUNS runs of one sort, of which some kinds of events were reported; of lossy ones a twentieth of these was
lost. Invented are the sends that no event tells of, and untrue those of them that the run hadn't. The cause of a hidden
send is right if what stands before it is the receive that gave it its prev, of those that a receive gave it. Receives were
lost if the run had them, their sends were reported and they weren't; those that are added are counted if the run had
them, and wrong if not. The last column has the processes that are added.

The exit status is 1 if a run is said never to have been, or, where nothing is lost, if messages are invented though all
receives or all sends were reported."""

import random
import subprocess
import sys
from collections import Counter
from pathlib import Path

sys.dont_write_bytecode = True
sys.path.insert(0, str(Path(__file__).resolve().parent))

from runs import BEGUN, KINDS, Run, machine, server_run, wild_run  # noqa: E402

REPORTED = (KINDS, ("send", "receive"), ("send", "print"), ("receive", "print"), ("send",), ("receive",), ("print",))
LOSSES = (0, 0.05)


def key_of(event):
    """A message or print, wherever it is told."""
    return event.sender, event.this


def causes_of(events):
    """The causes of the stamps in these events: a receive's sender and count, `BEGUN`, or None at first."""
    found, left, cause = {}, 0, None
    for event in events:
        if event.kind == "receive":
            left, cause = event.this, key_of(event)
        else:
            left, cause = event.prev, cause if event.prev == left else BEGUN
            found[key_of(event)] = cause
    return found


def completed(seqtool, streams):
    """All events of the completion."""
    given = "".join(f"{line}\n" for line in machine.write(streams, None))
    words = [seqtool, "complete", "--as", "streams"]
    done = subprocess.run(words, input=given, capture_output=True, text=True, check=False)
    if done.returncode:
        sys.exit(f"{done.stdout[:200]}of a run:\n{given}")
    return machine.read(done.stdout)[0]


def count(run, whole, counted):
    """Adds what a completion has of its run."""
    told = {(pid, event) for pid, events in run.streams.items() for event in events}
    seen = {key_of(event) for _, event in told}
    stamped = {key_of(event) for _, event in told if event.kind != "receive"}
    sent = {(*key_of(event), event.to) for events in run.full.values() for event in events if event.kind == "send"}
    counted["unlisted"] += len(whole.keys() - run.streams.keys())
    counted["lost"] += sum(event.kind == "receive" and (pid, event) not in told and key_of(event) in stamped
                           for pid, events in run.full.items() for event in events)
    for pid, events in whole.items():
        causes = causes_of(events)
        for event in (event for event in events if (pid, event) not in told):
            key = key_of(event)
            if event.kind == "send" and key not in seen:
                counted["invented"] += 1
                counted["untrue"] += (*key, event.to) not in sent
            elif event.kind == "send" and isinstance(run.causes[key], tuple):
                counted["caused"] += 1
                counted["right"] += causes[key] == run.causes[key]
            elif event.kind == "receive" and key in stamped:
                counted["found" if key in run.received else "wrong"] += 1


def row(seqtool, go, reported, lost, runs, seed):
    """The counts over all runs of a sort."""
    counted, chosen = Counter(), random.Random(f"{seed} {go.__name__} {reported} {lost}")
    for _ in range(runs):
        run = Run(chosen, chosen.randint(2, 8), reported, lost)
        go(run, chosen.choice((60, 200)))
        count(run, completed(seqtool, run.streams), counted)
    return counted


def main(seqtool="bin/seqtool", runs="150", seed="1"):
    failed = 0
    print("| runs | reported | invented | untrue | causes right | lost receives added | wrong | processes added |")
    print("|---|---|---|---|---|---|---|---|")
    for go in (server_run, wild_run):
        for lost in LOSSES:
            for reported in REPORTED:
                it = row(seqtool, go, reported, lost, int(runs), seed)
                sort = go.__name__.removesuffix("_run") + (", lossy" if lost else "")
                right = f"{100 * it['right'] / it['caused']:.0f} % of {it['caused']}" if it["caused"] else "-"
                print(f"| {sort} | {' + '.join(reported)} | {it['invented']} | {it['untrue']} | {right} | "
                      f"{it['found']} of {it['lost']} | {it['wrong']} | {it['unlisted']} |", flush=True)
                failed += not lost and bool({"send", "receive"} & set(reported)) and it["invented"] > 0
    return 1 if failed else 0


if __name__ == "__main__":
    sys.exit(main(*sys.argv[1:]))
