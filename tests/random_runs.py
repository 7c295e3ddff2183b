#!/usr/bin/env python3
"""Compares seqaudit with the slow model on random runs of the machine, and on streams of no run.

    random_runs.py SEQAUDIT FIRST LAST

Each number from FIRST to LAST makes one run. The model and the program must write the same for
`check` of its acts, to `check` of the acts after a tampering, and to `audit` and `chart` of its
streams. If every stamp and every receive of a message with
a token is reported and nothing is reset, the streams must fit; and each fits must pass `check`.

Each number also makes wild streams: those of another run with one to three damages. `audit` and
`chart` of them must be the model's too. Of 300 numbers or more each of the auditor's results must
have come at least once."""

import random
import subprocess
import sys
from collections import Counter
from dataclasses import replace
from pathlib import Path

sys.path.insert(1, str(Path(__file__).resolve().parent / "models"))

import slow_seqaudit as model  # noqa: E402

LABELS = (1, 2, 3)
VALUES = range(6)


class Run:
    """A world with the acts so far and what they reported."""

    def __init__(self, chosen, reported):
        nodes = chosen.choice([[0], [0, 1], [1, 2]])
        self.pids = sorted({(chosen.choice(nodes), 30 + k) for k in range(chosen.randint(1, 4))})
        self.chosen, self.reported = chosen, reported
        self.world, self.acts = model.World(self.pids), []
        self.streams = {pid: [] for pid in self.pids}
        for node in sorted({node for node, _ in self.pids}):
            self.act("tracer", min(pid for pid in self.pids if pid[0] == node), "true")
        for pid in self.pids:
            self.act("restore", pid, chosen.choice(LABELS), *self.flags(), 0, 0, model.show(pid))
        for _ in range(chosen.randint(0, 60)):
            self.any_act()

    def flags(self):
        """The flags of a token; in a run that is reported whole each token has all."""
        return ["true" if self.reported else self.chosen.choice(["true", "true", "false"]) for _ in range(3)]

    def act(self, word, pid, *rest):
        self.acts.append([word, model.show(pid), *map(str, rest)])
        report, _ = self.world.step(self.acts[-1], len(self.acts) - 1)
        if report:
            self.streams[report.actor()].append(report)

    def any_act(self):
        """One act of one process."""
        choice, pid = self.chosen.choice, self.chosen.choice(self.pids)
        value, other = choice(VALUES), model.show(choice(self.pids))
        word = choice(["send"] * 6 + ["receive"] * 6 + ["print"] * 3 + ["printat", "restore", "clear"]
                      + (["restore"] if self.reported else ["set", "set", "set", "look", "reset", "tracer"]))
        flags = self.flags()
        rest = {
            "send": [other, value],
            "receive": choice([["first"], ["place", choice(range(3))], ["value", value], ["from", other],
                               ["both", other, value]]),
            "print": [value],
            "printat": [choice(LABELS), value],
            "restore": [choice(LABELS), *flags, 0, 0, other],
            "set": choice([["label", choice(LABELS)], [choice(["send", "receive", "print"]), flags[0]]]),
            "tracer": flags[:1],
        }
        self.act(word, pid, *rest.get(word, []))

    def tampered(self):
        """The acts with one or two of them dropped, doubled or exchanged."""
        acts = list(self.acts)
        for _ in range(self.chosen.randint(1, 2)):
            place, other = self.chosen.randrange(len(acts)), self.chosen.randrange(len(acts))
            how = self.chosen.choice(["drop", "double", "exchange"])
            if how == "drop" and len(acts) > 1:
                del acts[place]
            elif how == "double":
                acts.insert(place, acts[other])
            else:
                acts[place], acts[other] = acts[other], acts[place]
        return acts


class Wild:
    """The streams of a run with one to three damages, each of which may give a reason of its own."""

    SKIPS = (1, 999, 1_000, 1_001, 1_002, 5_000)

    def __init__(self, chosen):
        run = Run(chosen, chosen.choice([True, False]))
        self.chosen, self.pids, self.streams = chosen, run.pids, run.streams
        kinds = [self.shift_counts, self.raise_prev, self.lose, self.double, self.exchange, self.near_greatest,
                 self.change]
        for kind in chosen.sample(kinds, chosen.randint(1, 3)):
            if any(self.streams.values()):
                kind()
        # A number of the text form is at most the greatest.
        for pid, events in self.streams.items():
            self.streams[pid] = [replace(event, prev=min(event.prev, model.TOP), this=min(event.this, model.TOP))
                                 for event in events]

    def some_place(self):
        pid = self.chosen.choice([pid for pid in self.pids if self.streams[pid]])
        return self.streams[pid], self.chosen.randrange(len(self.streams[pid]))

    def shift_counts(self):
        """From one event on a process's own counts are greater, by about as much as the auditor fills in."""
        events, first = self.some_place()
        more = self.chosen.choice(self.SKIPS)
        for i in range(first, len(events)):
            if events[i].kind != "receive":
                events[i] = replace(events[i], this=events[i].this + more)

    def raise_prev(self):
        """One event's prev is far above its process's clock, or just at or below its this."""
        events, i = self.some_place()
        prev = events[i].prev + self.chosen.choice(self.SKIPS)
        this = self.chosen.choice([events[i].this, prev, prev + 1, prev + self.chosen.choice(self.SKIPS)])
        events[i] = replace(events[i], prev=prev, this=this)

    def lose(self):
        """An event is missing: of a receive the message stays, of a send the receive names what nobody told."""
        events, i = self.some_place()
        del events[i]

    def double(self):
        events, i = self.some_place()
        events.insert(self.chosen.randint(i, len(events)), events[i])

    def exchange(self):
        events, i = self.some_place()
        j = self.chosen.randrange(len(events))
        events[i], events[j] = events[j], events[i]

    def near_greatest(self):
        """One event, or all from it on, have counts so high that the last of them is at most the greatest."""
        events, first = self.some_place()
        last = self.chosen.choice([first + 1, len(events)])
        more = model.TOP - self.chosen.choice([0, 1, 1_000]) - max(event.this for event in events[first:last])
        for i in range(first, last):
            lower = self.chosen.choice([0, more])
            events[i] = replace(events[i], prev=events[i].prev + lower, this=events[i].this + more)

    def change(self):
        """One field of one event is another."""
        events, i = self.some_place()
        event, other = events[i], self.chosen.choice(self.pids)
        changes = [{"label": self.chosen.choice(LABELS)}, {"value": self.chosen.choice(VALUES)},
                   {"prev": self.chosen.randrange(8)}, {"this": self.chosen.randrange(8)}]
        changes += [{"sender": other}] * (event.kind == "receive") + [{"to": other}] * (event.kind == "send")
        events[i] = replace(event, **self.chosen.choice(changes))


def text(lines):
    return "".join(line + "\n" for line in lines)


def ask(program, words, given):
    done = subprocess.run([program, *words], input=given, capture_output=True, text=True, check=False)
    return done.stdout, done.returncode


def compare(program, words, given):
    """The model's output, which must be the program's too."""
    lines, status = model.answer(words, given)
    said = ask(program, words, given)
    assert said == (text(lines), status), (words, given, lines, status, said)
    return lines, status


def compare_run(program, number, counted):
    """One run: the verdicts of its acts, and what its streams give."""
    reported = number % 2 == 0
    run = Run(random.Random(number), reported)
    assert compare(program, ["check"], text(model.write(run.streams, run.acts)))[1] == 0, number
    said, _ = compare(program, ["check"], text(model.write(run.streams, run.tampered())))
    counted["tampered: " + " ".join(said[0].split(" ")[:2])] += 1
    answer, status = compare_streams(program, run.streams, counted, "audit")
    assert status == 0 or not reported, (number, answer)


def compare_streams(program, streams, counted, called):
    """The auditor's answer about streams; a fits must pass the check. And the charts of all labels."""
    bare = text(line for line in model.write(streams, []) if line != "acts")
    answer, status = compare(program, ["audit"], bare)
    counted[f"{called}: " + ("fits" if status == 0 else answer[0].split(" ")[3])] += 1
    assert status == 1 or ask(program, ["check"], text(answer))[1] == 0, (bare, answer)
    for label in LABELS:
        compare(program, ["chart", "--label", str(label)], bare)
    return answer, status


# All that the auditor may say.
ANSWERS = ("fits", "prevnotbefore", "notrising", "repeated", "mismatch", "uncaused", "toowide", "notreplayed")
ENOUGH = 300


def main():
    program, first, last = sys.argv[1], int(sys.argv[2]), int(sys.argv[3])
    counted = Counter()
    for number in range(first, last + 1):
        compare_run(program, number, counted)
        compare_streams(program, Wild(random.Random(f"wild {number}")).streams, counted, "wild")
    for what, count in sorted(counted.items()):
        print(f"{count:6} {what}")
    never = [answer for answer in ANSWERS if not counted[f"wild: {answer}"]]
    assert last - first + 1 < ENOUGH or not never, f"no wild streams got {never}"


if __name__ == "__main__":
    main()
