"""The output that the program owes, by slow readings of `docs/FORMATS.md` and of the rules: the reader's first refusal,
and what the slow auditor of `tests/models` says of a text that has none."""

import re
import sys
from functools import cache
from pathlib import Path

sys.path.insert(0, str(Path(__file__).resolve().parents[1] / "models"))

import slow_seqaudit as slow  # noqa: E402

from .program import Answer  # noqa: E402

GREATEST = {"n": 2**64 - 1, "l": 2**32 - 1}
MOST_BYTES, MOST_PROCESSES, MOST_EVENTS, MOST_ACTS = 67_108_864, 1_024, 1_000_000, 4_000_000

# The lines: %n is a number, %l a label, %p a pid, %b a truth value.
PROCESS = ("process %p",)
EVENTS = ("{seq_trace,%l,{send,{%n,%n},%p,%p,%n}}", "{seq_trace,%l,{'receive',{%n,%n},%p,%p,%n}}",
          "{seq_trace,%l,{print,{%n,%n},%p,[],%n}}")
ACTS = ("send %p %p %n", "receive %p first", "receive %p from %p", "receive %p value %n", "receive %p both %p %n",
        "receive %p place %n", "print %p %n", "printat %p %l %n", "set %p label %l", "set %p send %b",
        "set %p receive %b", "set %p print %b", "clear %p", "look %p", "reset %p", "tracer %p %b",
        "restore %p %l %b %b %b %n %n %p")
NUMBER = "(?:0|[1-9][0-9]*)"
SPELLING = {"n": f"({NUMBER})", "l": f"({NUMBER})", "p": rf"<({NUMBER}\.{NUMBER})\.0>", "b": "(true|false)"}


@cache
def pattern(shape):
    return re.compile(re.sub("%(.)", lambda found: SPELLING[found[1]], re.escape(shape)))


def pids_of(line, shapes):
    """The shape of a line and the pids that it names, or None if it has none of these shapes."""
    for shape in shapes:
        if found := pattern(shape).fullmatch(line):
            kinds, pids = re.findall("%(.)", shape), []
            for kind, text in zip(kinds, found.groups()):
                if kind == "p":
                    pids.append(tuple(map(int, text.split("."))))
                elif kind in GREATEST and int(text) > GREATEST[kind]:
                    return None
            return (shape, pids) if all(max(pid) <= 65_535 for pid in pids) else None
    return None


def first_fault(text):
    """The reader's first refusal, as a line of the program has it after `fault`, or None."""
    if len(text) > MOST_BYTES:
        return "too large"
    *lines, rest = text.decode("latin-1").split("\n")
    listed, named, any_node, events, acts = [], [], False, 0, None
    for number, line in enumerate(lines, 1):
        if number == 1:
            if line not in ("seqtrace 1", "seqtrace 2"):
                return "line 1"
            continue
        if line == "acts" and acts is None:
            acts = 0
            continue
        read = pids_of(line, ACTS if acts is not None else PROCESS + EVENTS * bool(listed))
        if not read or (lines[0] == "seqtrace 1" and any(node for node, _ in read[1])):
            return f"line {number}"
        shape, pids = read
        any_node = any_node or any(node for node, _ in pids)
        if shape in PROCESS:
            if listed and pids[0] <= listed[-1]:
                return f"order {number}"
            listed.append(pids[0])
        elif shape in EVENTS:
            if listed[-1] != pids["'receive'" in shape]:
                return f"foreign {number}"
            events += 1
        else:
            acts += 1
            pids = pids[:1 + shape.startswith("send")]
        if len(listed) > MOST_PROCESSES or events > MOST_EVENTS or (acts or 0) > MOST_ACTS:
            return f"too many {number}"
        named.append((number, pids))
    if rest or not lines:
        return "truncated"
    if lines[0] == "seqtrace 2" and not any_node:
        return "line 1"
    unlisted = next((number for number, pids in named if not set(pids) <= set(listed)), None)
    return f"unknown {unlisted}" if unlisted else None


def replayed(text):
    """The lines of the bundle that the acts' run gives."""
    pids, acts = slow.read(text)
    world, streams = slow.World(pids), {pid: [] for pid in pids}
    for act in acts:
        event, _ = world.step(act)
        if event:
            streams[event.actor()].append(event)
    return [text.split("\n", 1)[0], *list(slow.write(streams, acts))[1:]]


def expected(words, text):
    """The output that each command but `drive` owes for the bytes; that of `drive` only if it refuses them."""
    fault = first_fault(text)
    if fault is None and words[0] in ("check", "replay", "drive") and b"\nacts\n" not in text:
        fault = "no acts"
    if fault:
        return Answer(2, f"fault {fault}\n".encode())
    if words[0] == "drive":
        return None
    as_text = text.decode("ascii")
    lines, status = (replayed(as_text), 0) if words[0] == "replay" else slow.answer(list(words), as_text)
    return Answer(status, "".join(f"{line}\n" for line in lines).encode())


def scripts(text):
    pids, acts = slow.read(text.decode("ascii"))
    return {slow.show(pid): [act for act in acts if act[1] == slow.show(pid)] for pid in pids}


def is_driven(text, answer):
    """Whether this is a record of these scripts: the same acts of each process, and they show the streams."""
    return (answer.status == 0 and not answer.complaint and first_fault(answer.output) is None
            and scripts(answer.output) == scripts(text) and expected(("check",), answer.output).status == 0)


def is_right(words, text, answer):
    return is_driven(text, answer) if expected(words, text) is None else answer == expected(words, text)
