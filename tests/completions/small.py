#!/usr/bin/env python3
"""Compares `seqtool complete` on small streams with a search through what the machine can do:

    tests/completions/small.py [SEQTOOL [COUNT [SEED]]]

Of up to three processes and six events, some of a run and most of any kind. A completion has to come exactly if the search
finds a run, of the listed processes and up to three silent ones. What is added is judged by the text and from the
beginning: the given events stay, nothing is missing in all events, nothing is added for nothing, and unlisted processes
weren't listed. Then the lines have to be those of the slow model of tests/models: the same completion, or the same reason
at the same place. The table says how often each result came; the exit status is 1 if one was wrong."""

import random
import subprocess
import sys
from collections import Counter
from dataclasses import replace
from pathlib import Path

sys.dont_write_bytecode = True
sys.path.insert(0, str(Path(__file__).resolve().parent))

from search import MOST_SILENT, is_stamp, machine, silent_needed  # noqa: E402

import slow_seqtool  # noqa: E402  (search says where it is)

PIDS = [(0, 30), (0, 31), (0, 32)]
MOST_EVENTS = 6
SHOWN = 3  # Wrong results that are shown.
ENOUGH = 1_000  # The streams of which each result has to come once.
REASONS = {"prevnotbefore", "notrising", "repeated", "mismatch", "late", "unfounded"}


# Streams

def some_events(chosen, is_careful):
    """Events of which nothing is known; if they are to be careful ones, pairing takes them. If many prevs aren't 0 and few
    counts are left out, messages are missing, and somebody has to have sent them who isn't listed."""
    pids, most, in_turn = PIDS[:chosen.choice([1, 1, 2, 3])], chosen.randint(2, MOST_EVENTS), chosen.choice([0, 0.5, 1])
    kinds = chosen.choice([["send", "receive", "receive", "print"], ["print", "print", "print", "receive"]])
    streams, stamped, received = {pid: [] for pid in pids}, {}, set()
    for _ in range(chosen.randint(2, MOST_EVENTS)):
        pid, other, this = chosen.choice(pids), chosen.choice(pids), chosen.randint(1, most)
        if chosen.random() < in_turn:
            this = 1 + max((it.this for it in streams[pid] if is_stamp(it)), default=0)
        prev = chosen.randrange(this if is_careful or chosen.random() < 0.9 else this + 1)
        kind, label, value = chosen.choice(kinds), chosen.randint(1, 2), chosen.randrange(2)
        if kind == "receive":
            event = machine.Event(label, kind, prev, this, other, pid, value)
            sent = stamped.get((other, this))
            if is_careful and (sent and (sent.kind, sent.to) != ("send", pid) or (other, this) in received):
                continue
            event = replace(sent, kind=kind) if is_careful and sent else event
            received.add((other, this))
        else:
            event = machine.Event(label, kind, prev, this, pid, other if kind == "send" else None, value)
            if is_careful and ((pid, this) in received or any(is_stamp(it) and it.this >= this for it in streams[pid])):
                continue
            stamped[pid, this] = event
        streams[pid].append(event)
    return streams


def some_run(chosen):
    """The reports of a run of the machine, a part of which is lost."""
    pids = PIDS[:chosen.randint(1, len(PIDS))]
    world, streams, lost = machine.World(pids), {pid: [] for pid in pids}, chosen.choice([0, 0.2, 0.5, 0.8])
    world.step(["tracer", machine.show(pids[0]), "true"])
    while sum(map(len, streams.values())) < MOST_EVENTS and chosen.random() < 0.97:
        me, other = machine.show(chosen.choice(pids)), machine.show(chosen.choice(pids))
        flags = [chosen.choice(["true", "true", "false"]) for _ in range(3)]
        act = chosen.choice([["send", me, other, "1"], ["receive", me, "place", str(chosen.randrange(2))],
                             ["print", me, "0"], ["clear", me], ["set", me, "label", "2"],
                             ["restore", me, "1", *flags, "0", "0", me]])
        report, _ = world.step(act)
        if report and chosen.random() >= lost:
            streams[report.actor()].append(report)
    return streams


def some_streams(number, seed):
    chosen = random.Random(f"{seed} {number}")
    sort = chosen.choice(["any", "careful", "careful", "careful", "run"])
    return some_run(chosen) if sort == "run" else some_events(chosen, sort == "careful")


# Completions

def lines_of(streams, whole, added):
    """The lines that have to come if these are all events and those at these places were added."""
    unlisted = [f"unlisted {machine.show(pid)}" for pid in whole if pid not in streams]
    return [f"added {len(added)}", *unlisted, *(f"added {machine.show(pid)} {i} {event}"
                                                for (pid, i), event in machine.places(whole) if (pid, i) in added)]


def fault_of_text(streams, whole, lines):
    """The fault of the lines of `complete`, if `--as streams` writes these events."""
    places = [line.split(" ")[1:3] for line in lines[1:] if line.startswith("added ")]
    added = {(machine.parse_pid(pid), int(i)) for pid, i in places}
    if lines != lines_of(streams, whole, added):
        return "the lines aren't those of these streams"
    told = {pid: [event for k, event in enumerate(events) if (pid, k) not in added] for pid, events in whole.items()}
    if any(told[pid] != streams.get(pid, []) for pid in whole) or not set(streams) <= set(whole):
        return "the given events aren't kept"
    return "an unlisted process does nothing" if any(not whole[pid] for pid in whole if pid not in streams) else None


def fault_of_messages(streams, whole):
    """The send or receive that is missing, or that was added for nothing."""
    taken = Counter(replace(event, kind="send") for events in whole.values() for event in events if not is_stamp(event))
    sent = [event for events in whole.values() for event in events if event.kind == "send"]
    if max(taken.values(), default=0) > 1 or any(event not in sent for event in taken):
        return "a message is received twice, or wasn't sent"
    told = {event for events in streams.values() for event in events}
    idle = [event for event in sent if event not in told and event not in taken]
    return "a send is added that nobody receives" if idle else None


def fault_of_counts(streams, events):
    """The fault of a process's events in turn."""
    told = {event for some in streams.values() for event in some}
    # The clock also as it would be without invented sends: these come last, and what was added before them may stay.
    clock = clock_before = left = 0
    for event, following in zip(events, [*events[1:], None]):
        if event.prev >= event.this or is_stamp(event) and event.this <= clock:
            return "a count doesn't rise"
        if is_stamp(event) and event.prev != left and event.prev < clock:
            return "something is missing before a stamp"
        if event not in told and not is_stamp(event) and not is_of_use(event, following, left, clock_before, told):
            return "a receive is added that nothing needs"
        clock, left = max(clock, event.this), event.prev if is_stamp(event) else event.this
        if event in told or not is_stamp(event) or replace(event, kind="receive") in told:
            clock_before = max(clock_before, event.this)
    return None


def is_of_use(receive, following, left, clock, told):
    """Whether the stamp after an added receive lacks it. If its send was reported, the stamp may begin a trace above the
    clock."""
    if not following or not is_stamp(following) or following.prev != receive.this or following.prev in (left, clock):
        return False
    return following.prev < clock or replace(receive, kind="send") in told


def fault_of(streams, lines, whole):
    return fault_of_text(streams, whole, lines) or fault_of_messages(streams, whole) or \
        next(filter(None, (fault_of_counts(streams, events) for events in whole.values())), None)


# The comparison

def ask(seqtool, words, given):
    done = subprocess.run([seqtool, *words], input=given, capture_output=True, text=True, check=False)
    return done.stdout.splitlines(), done.returncode


def judge(seqtool, streams):
    """The program's answer in a few words, and its fault."""
    given = "".join(f"{line}\n" for line in machine.write(streams, None))
    lines, status = ask(seqtool, ["complete"], given)
    said, fault = judge_lines(seqtool, streams, given, lines, status)
    is_same = (lines, status) == slow_seqtool.answer(["complete"], given)
    return said, fault or (None if is_same else "the slow model says something else")


def judge_lines(seqtool, streams, given, lines, status):
    needed, first = silent_needed(streams), lines[0] if lines else ""
    if status == 1 and first.startswith("never "):
        return first.split(" ")[3], None if needed is None else f"never, and {needed} silent processes make a run"
    if status != 0 or not first.startswith("added "):
        return "no answer", f"status {status}, {first}"
    unlisted = sum(line.startswith("unlisted ") for line in lines)
    said = f"added, {unlisted} unlisted" if unlisted else "added" if lines != ["added 0"] else "added 0"
    if needed is None and unlisted <= MOST_SILENT:
        return said, "added, and there is no run"
    text, _ = ask(seqtool, ["complete", "--as", "streams"], given)
    whole, _ = machine.read("".join(f"{line}\n" for line in text))
    said += f", where {needed} are enough" if needed not in (None, unlisted) else ""
    return said, fault_of(streams, lines, whole)


def main(seqtool="bin/seqtool", count="20000", seed="1"):
    counted, wrong = Counter(), 0
    for number in range(int(count)):
        streams = some_streams(number, seed)
        said, fault = judge(seqtool, streams)
        counted[said] += 1
        if fault:
            wrong += 1
            if wrong <= SHOWN:
                print(f"WRONG: {fault}", *machine.write(streams, None), sep="\n")
    for said, often in sorted(counted.items()):
        print(f"{often:7} {said}")
    missing = (REASONS | {"added 0", "added", "added, 1 unlisted"}) - set(counted)
    if int(count) >= ENOUGH and missing:
        print(f"never said: {', '.join(sorted(missing))}")
    print(f"{count} small streams, {wrong} wrong")
    return 1 if wrong or int(count) >= ENOUGH and missing else 0


if __name__ == "__main__":
    sys.exit(main(*sys.argv[1:]))
