#!/usr/bin/env python3
"""Holds what `gemshowal complete` says certainly happened to all runs of small streams:

    tests/completions/certain.py GEMSHOWAL [COUNT [SEED]]

What is true in all runs without a reset, with any processes that report nothing, is found by searching each process's own
runs: others can send it any message early. Counted is what is true in all of them, and how much of that is said; what is
said may be missing in no run. On a standard node a token that begins leaves the counters as they are, and the runs without
put-backs are searched. The exit status is 1 if something was said that isn't so, or if more than a twentieth isn't said."""

import json
import subprocess
import sys
from collections import Counter, defaultdict
from concurrent.futures import ThreadPoolExecutor
from pathlib import Path

sys.dont_write_bytecode = True
sys.path.insert(0, str(Path(__file__).resolve().parent))

from search import NoRun, Told, is_stamp, machine  # noqa: E402
from small import some_streams  # noqa: E402

MOST_UNSAID = 0.05  # The share of what is true in all runs.
SHOWN = 3  # Wrong results that are shown.
ENOUGH = 1_000  # The streams of which each row has to have something.
ROWS = ("a receive of this count was lost between these two events", "the send of this receive wasn't reported",
        "on a standard node without put-backs: a receive was lost here")


class Process:
    """A process's reported events, and the sends of it that only their receives tell of."""

    def __init__(self, told, pid):
        self.events, self.hidden = told.streams[pid], sorted(told.hidden[pid].items())
        stamps = [(it.this, it.prev) for it in self.events if is_stamp(it)] + self.hidden
        self.due = {this for this, _ in stamps}
        self.prevs = {prev for _, prev in stamps} - {0}
        self.most = max([it.this for it in self.events] + [this for this, _ in self.hidden], default=0)

    def steps(self, state, may_take, may_begin):
        """The states after one step: how many of its events and hidden sends are done, its clock and its last count."""
        done, sent, clock, last = state
        if done < len(self.events):
            event = self.events[done]
            if not is_stamp(event):
                yield done + 1, sent, max(clock, event.this), event.this
            elif (event.prev, event.this) == (last, clock + 1):
                yield done + 1, sent, clock + 1, last
        if sent < len(self.hidden) and self.hidden[sent] == (clock + 1, last):
            yield done, sent + 1, clock + 1, last
        if clock + 1 not in self.due and clock < self.most:
            yield done, sent, clock + 1, last
        if may_begin:
            yield done, sent, clock, clock
        for count in self.prevs:
            if may_take(done, count):
                yield done, sent, max(clock, count), count

    def is_late(self, done, sent, clock, _):
        """Whether a count that it has yet to stamp is passed."""
        ahead = [it.this for it in self.events[done:] if is_stamp(it)] + [this for this, _ in self.hidden[sent:]]
        return clock >= min(ahead, default=clock + 1)

    def has_run(self, may_take, may_begin):
        start = (0, 0, 0, 0)
        seen, waiting = {start}, [start]
        while waiting:
            state = waiting.pop()
            if state[:2] == (len(self.events), len(self.hidden)):
                return True
            after = {it for it in self.steps(state, may_take, may_begin) if it not in seen and not self.is_late(*it)}
            seen |= after
            waiting += after
        return False

    def lost(self, may_begin):
        """Before which of its events, and of which counts, it receives unreported in all its runs."""
        def without(gap, counts):
            return not self.has_run(lambda done, count: done != gap or count not in counts, may_begin)
        # If the process has no run, each gap and count is among them.
        gaps = [gap for gap in range(len(self.events) + 1) if without(gap, self.prevs)]
        return {(gap, count) for gap in gaps for count in self.prevs if without(gap, {count})}


def true_in_all(streams):
    """By row, what is true in all runs of the streams; None if they have none."""
    try:
        told = Told(streams)
    except NoRun:
        return None
    processes = {pid: Process(told, pid) for pid in streams}
    if not all(it.has_run(lambda *_: True, True) for it in processes.values()):
        return None
    found = defaultdict(set)
    for pid, process in processes.items():
        found[ROWS[0]] |= {(pid, *it) for it in process.lost(True)}
        found[ROWS[1]] |= {(pid, this) for this, _ in process.hidden}
        found[ROWS[2]] |= {(pid, *it) for it in process.lost(False)}
    return found


def said_of(told):
    """By row, what the program says."""
    said, added = defaultdict(set), defaultdict(set)
    for event in told["events"]:
        added[machine.parse_pid(event["pid"])].add(event["index"])

    def gap(event):
        pid, index = machine.parse_pid(event["pid"]), event["index"]
        return pid, index - sum(other < index for other in added[pid])

    for event in told["events"]:
        if event["kind"] == "receive":
            for row in {"certain": (ROWS[0], ROWS[2]), "certain_on_a_node": (ROWS[2],), "perhaps": ()}[event["grade"]]:
                said[row].add((*gap(event), event["this"]))
        elif event["grade"] == "certain":
            said[ROWS[1]].add((machine.parse_pid(event["pid"]), event["this"]))
    said[ROWS[2]] |= {(*gap(event), event["count"]) for event in told["lost_on_a_node"]}
    return said


def ask(gemshowal, streams):
    given = "".join(f"{line}\n" for line in machine.write(streams, None))
    done = subprocess.run([gemshowal, "complete", "--json"], input=given, capture_output=True, text=True, check=False)
    return json.loads(done.stdout)


def main(gemshowal="bin/rust/gemshowal", count="3000", seed="1"):
    found, said, wrong, fitting = Counter(), Counter(), 0, 0
    all_streams = [some_streams(number, seed) for number in range(int(count))]
    with ThreadPoolExecutor() as pool:
        answers = pool.map(lambda streams: ask(gemshowal, streams), all_streams)
    for streams, told in zip(all_streams, answers):
        truth = true_in_all(streams)
        if truth is None:
            continue
        fitting += 1
        by_row = said_of(told)
        for row in ROWS:
            found[row] += len(truth[row])
            said[row] += len(truth[row] & by_row[row])
            if false := by_row[row] - truth[row]:
                wrong += 1
                if wrong <= SHOWN:
                    print(f"WRONG: {row}: {false}", *machine.write(streams, None), sep="\n")
    for row in ROWS:
        print(f"{found[row]:7} {said[row]:7} {row}")
    unsaid = [row for row in ROWS if said[row] < found[row] * (1 - MOST_UNSAID) or int(count) >= ENOUGH and not found[row]]
    print(f"{count} small streams, {fitting} with a run, {wrong} wrong")
    return 1 if wrong or unsaid else 0


if __name__ == "__main__":
    sys.exit(main(*sys.argv[1:]))
