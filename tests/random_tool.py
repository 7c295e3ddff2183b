#!/usr/bin/env python3
"""Compares `seqtool complete` with the slow model on small traces at random.

    random_tool.py SEQAUDIT SEQTOOL FIRST LAST

Each number from FIRST to LAST makes three traces: of a run without a reset some reports are lost; of a run of any kind
one to three damages are made; and a few events are put together of which pairing takes most. Then there are the traces
of `CHOSEN`, which chance makes seldom. The program and the model must have the same status and write the same, but for
acts. A completion must have the trace's events in their order and lack nothing more, and the acts of each must pass
`seqaudit check`. A run without a reset must have a completion. Of 1,000 numbers or more each answer must have come at
least once."""

import random
import sys
from collections import Counter
from dataclasses import replace
from pathlib import Path

sys.path.insert(1, str(Path(__file__).resolve().parent / "models"))

import slow_seqaudit as model  # noqa: E402
import slow_seqtool as tool  # noqa: E402
from random_runs import Run, Wild, ask, text  # noqa: E402
from slow_seqaudit import Event  # noqa: E402

FIRST, SECOND, THIRD = (0, 30), (0, 31), (0, 32)


class Lossy(Run):
    """A run without a reset, of which some reports are lost: of a kind, of a process, or here and there."""

    SHARES = (0, 0, 0.1, 0.3, 0.5, 0.7, 1)

    def __init__(self, chosen):
        super().__init__(chosen, True)
        lost = {kind: chosen.choice(self.SHARES) for kind in ("send", "receive", "print")}
        silent = [pid for pid in self.pids if chosen.random() < 0.15]
        self.streams = {pid: [event for event in events if pid not in silent and chosen.random() >= lost[event.kind]]
                        for pid, events in self.streams.items()}


def few_events(chosen):
    """Up to nine events of one to three processes, with counts so low that they are scarce."""
    pids = [FIRST, SECOND, THIRD][:chosen.choice([1, 1, 2, 2, 3])]
    streams, stamped, received = {pid: [] for pid in pids}, {}, set()
    most = chosen.randint(2, 6)
    for _ in range(chosen.randint(1, 9)):
        pid, other, this = chosen.choice(pids), chosen.choice(pids), chosen.randint(1, most)
        prev, kind = chosen.randrange(this), chosen.choice(["send", "receive", "receive", "receive", "print"])
        if kind == "receive":
            event = stamped.get((other, this)) or Event(1, "send", prev, this, other, pid, 0)
            if event.kind == "send" and event.to == pid and (other, this) not in received:
                received.add((other, this))
                streams[pid].append(replace(event, kind="receive"))
        elif (pid, this) not in received and all(this > event.this for event in streams[pid] if event.kind != "receive"):
            stamped[pid, this] = Event(1, kind, prev, this, pid, other if kind == "send" else None, 0)
            streams[pid].append(stamped[pid, this])
    return streams


def own_receives(*serials):
    return {FIRST: [Event(1, "receive", prev, this, FIRST, FIRST, 0) for prev, this in serials]}


def invented_below(count):
    """The last process needs a message of the count, which the first is free to send though it received one of it."""
    sent = Event(1, "send", 0, count, SECOND, FIRST, 0)
    return {FIRST: [replace(sent, kind="receive")], SECOND: [sent],
            THIRD: [Event(1, "print", 0, count + 1, THIRD, None, 0), Event(1, "print", count, count + 2, THIRD, None, 0)]}


# The first two have a run only with a process that isn't listed.
CHOSEN = (own_receives((0, 2), (0, 1), (1, 3), (2, 4)), own_receives((0, 3), (0, 1), (1, 4), (3, 5)),
          own_receives((0, 1), (0, 2), (1, 3), (2, 4)), own_receives((0, 2), (0, 1), (2, 3), (1, 4)), invented_below(2))


def word_of(lines):
    """The meaning of an output: a completion, or the reason of a `never`."""
    word, *rest = lines[0].split(" ")
    return {"added": "whole", "never": rest[-1] if word != "never" else rest[2]}[word]


class Trace:
    """Streams, and what the model says of them."""

    def __init__(self, streams):
        self.streams, self.text = streams, text(model.write(streams, None))
        self.lines, self.status = tool.answer(["complete"], self.text)
        self.word = word_of(self.lines)
        self.unlisted = [model.parse_pid(line.split(" ")[1]) for line in self.lines if line.startswith("unlisted ")]

    def has_hidden(self):
        return None in model.pair(self.streams).values()

    def is_completed(self, whole):
        """Whether these streams are the trace with what was added, and nothing more is added to them."""
        places = {(model.parse_pid(pid), int(i))
                  for word, pid, i, *_ in (line.split(" ") for line in self.lines if line.startswith("added <"))}
        told = {pid: [event for k, event in enumerate(events) if (pid, k) not in places] for pid, events in whole.items()}
        return told == self.streams | {pid: [] for pid in self.unlisted} \
            and tool.answer(["complete"], text(model.write(whole, None))) == (["added 0"], 0)

    def is_shown(self, acts):
        """Whether these lines are the trace and the unlisted processes, with acts that show them without a reset."""
        listed = dict(sorted({**{pid: [] for pid in self.unlisted}, **self.streams}.items()))
        return text(acts).startswith(text(model.write(listed, None)) + "acts\n") \
            and not any(line.startswith("reset ") for line in acts) and model.answer(["check"], text(acts))[1] == 0


def lines_of(program, words, given):
    said, status = ask(program, words, given)
    return said.splitlines(), status


def compare_acts(seqaudit, seqtool, trace):
    acts, status = lines_of(seqtool, ["complete", "--as", "acts"], trace.text)
    own, own_status = tool.answer(["complete", "--as", "acts"], trace.text)
    assert status == own_status, (trace.text, acts[:1], own[:1])
    assert (acts, own) == (["long"], ["long"]) if status else trace.is_shown(acts) and trace.is_shown(own), (trace.text, acts)
    assert status or ask(seqaudit, ["check"], text(own))[1] == 0, (trace.text, own)


def compare(seqaudit, seqtool, streams):
    """The answers of the model and the program about streams, in a few words."""
    trace = Trace(streams)
    said, status = lines_of(seqtool, ["complete"], trace.text)
    assert (said, status) == (trace.lines, trace.status), (trace.text, trace.lines, said)
    if trace.word == "whole":
        whole, _ = lines_of(seqtool, ["complete", "--as", "streams"], trace.text)
        assert trace.is_completed(model.read(text(whole))[0]), (trace.text, whole)
        assert ask(seqtool, ["complete"], text(whole)) == ("added 0\n", 0), (trace.text, whole)
        compare_acts(seqaudit, seqtool, trace)
    assert status == (trace.word != "whole"), (trace.text, said)
    hidden = ", sends hidden" if trace.word in ("whole", "unfounded") and trace.has_hidden() else ""
    others = ", with unlisted processes" if trace.unlisted else ""
    return trace.word, f"{trace.word}{hidden}{others}"


# All that may be said.
ANSWERS = {"whole", "prevnotbefore", "notrising", "repeated", "mismatch", "late", "unfounded"}
ENOUGH = 1_000


def main(seqaudit, seqtool, first, last):
    counted, words = Counter(), set()
    for number in range(int(first), int(last) + 1):
        chosen = random.Random(f"tool {number}")
        for name, streams in ("lossy", Lossy(chosen).streams), ("wild", Wild(chosen).streams), ("few", few_events(chosen)):
            word, said = compare(seqaudit, seqtool, streams)
            assert word == "whole" or name != "lossy", (streams, said)
            counted[f"{name}: {said}"] += 1
            words.add(word)
    for streams in CHOSEN:
        word, said = compare(seqaudit, seqtool, streams)
        counted[f"chosen: {said}"] += 1
        words.add(word)
    for what, count in sorted(counted.items()):
        print(f"{count:6} {what}")
    assert int(last) - int(first) + 1 < ENOUGH or words == ANSWERS, f"never said: {ANSWERS - words}"


if __name__ == "__main__":
    main(*sys.argv[1:])
