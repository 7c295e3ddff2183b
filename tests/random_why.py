#!/usr/bin/env python3
"""Judges what `seqtool why` says by random runs of a standard node, in which the true cause of each event is known.

    random_why.py SEQTOOL|model STAMPS [FIRST]

Runs are made from the number FIRST on until they have enough sends and prints. Of each event `why` is asked, and its
first line judged: no sentence may be false in a run in which the premises hold that it names. If a program is given, it
must also write what the slow model writes, back and forth. At the end it prints how
often each sentence was said, and if premises failed what was true then."""

import random
import re
import subprocess
import sys
from collections import Counter, namedtuple
from pathlib import Path

sys.path.insert(1, str(Path(__file__).resolve().parent / "models"))

import slow_node  # noqa: E402
import slow_seqaudit as model  # noqa: E402
import slow_why  # noqa: E402

# The events of a run that are asked about if a program has to be started for each.
ASKED = 12

# An act of a process: its number, how many events its process had reported after it, whether it took a token, moved the
# counters in another way, made a token or set a label, and whether it was reported.
Act = namedtuple("Act", "number told takes moves begins is_reported")
# The send of a message: the number of its act, all that the message says, and whether it was reported.
Sent = namedtuple("Sent", "number content is_reported")


def content(stamped, to, value):
    return stamped.sender, to, stamped.label, stamped.prev, stamped.this, value


class Node(model.World):
    """A standard node, whose counters a token that is made leaves, one that is put back brings, and an answer moves."""

    def step(self, act, number=0):
        one = self.of[model.parse_pid(act[1])]
        last, token = one.last, one.token
        report, sent = super().step(["receive", *act[1:]] if act[0] == "answer" else act, number)
        if act[0] == "set":
            one.last = last
        elif act[0] == "restore":
            one.clock, one.last = one.token.this, one.token.prev
        elif act[0] == "answer" and sent is not None:
            if one.token:
                one.clock = one.last = slow_node.answer_count(one.token.this)
            one.token = token
        return report, sent


class Run:
    """A run without a reset, with its acts, and with the cause of each send and print: the latest act that gave its process
    the token, or the token its label."""

    def __init__(self, chosen):
        self.chosen = chosen
        self.pids = [(0, 30 + k) for k in range(chosen.randint(1, 8))]
        self.world, self.number = Node(self.pids), 0
        self.streams = {pid: [] for pid in self.pids}
        self.acts, self.sends = {pid: [] for pid in self.pids}, []
        self.giver = dict.fromkeys(self.pids)
        self.cause, self.number_of = {}, {}

    def act(self, word, pid, *rest):
        one, events = self.world.of[pid], self.streams[pid]
        had_token = one.token is not None
        report, sent = self.world.step([word, model.show(pid), *map(str, rest)], self.number)
        begins = word == "set" and (rest[0] == "label" or not had_token)
        takes = word == "receive" and sent is not None and one.token is not None
        if report:
            self.cause[pid, len(events)] = self.giver[pid]
            self.number_of[pid, len(events)] = self.number
            events.append(report)
        done = Act(self.number, len(events), takes, word in ("restore", "answer"), begins, report is not None)
        self.acts[pid].append(done)
        if word == "send" and one.token:
            message = content(one.token, model.parse_pid(rest[0]), int(rest[1]))
            self.sends.append(Sent(self.number, message, report is not None))
        if takes or begins or word == "restore":
            self.giver[pid] = done
        self.number += 1


class Wild(Run):
    """Acts without plan."""

    def __init__(self, chosen):
        super().__init__(chosen)
        steps, late = chosen.randint(5, 80), chosen.choice([0, 0, 0, 0.3])
        self.own_labels = chosen.random() < 0.5
        self.flags = [chosen.choice([1, 1, 0.9, 0.5]) for _ in range(3)]
        self.clears, self.labels = chosen.choice([0, 0.05, 0.15]), 0
        for step in range(steps):
            if step == int(late * steps):
                self.act("tracer", self.pids[0], "true")
            self.any_act()

    def any_act(self):
        pid, dice = self.chosen.choice(self.pids), self.chosen.random()
        queue = self.world.of[pid].queue
        if dice < 0.3:
            self.act("send", pid, model.show(self.chosen.choice(self.pids)), self.chosen.randrange(5))
        elif dice < 0.65:
            if queue:
                word = "answer" if self.chosen.random() < 0.01 else "receive"
                self.act(word, pid, "place", self.chosen.choice([0, self.chosen.randrange(len(queue))]))
        elif dice < 0.8:
            self.act("print", pid, self.chosen.randrange(5))
        elif dice < 0.8 + self.clears:
            self.act("clear", pid)
        elif dice < 0.97:
            if not self.world.of[pid].token or self.chosen.random() < 0.2:
                self.set_all(pid)
        elif dice < 0.98:
            serial = self.chosen.randrange(3), self.chosen.randrange(3)
            self.act("restore", pid, self.chosen.randrange(3), "true", "true", "true", *serial, model.show(pid))

    def set_all(self, pid):
        self.labels += 1
        self.act("set", pid, "label", self.labels if self.own_labels else self.chosen.randrange(3))
        for name, share in zip(("send", "receive", "print"), self.flags):
            self.act("set", pid, name, str(self.chosen.random() < share).lower())


class Calls(Run):
    """Clients call servers and clear their tokens between, under a label for each call or one for all."""

    def __init__(self, chosen):
        super().__init__(chosen)
        self.act("tracer", self.pids[0], "true")
        clients = self.pids[:max(1, len(self.pids) // 2)]
        is_shared, is_silent = chosen.random() < 0.3, chosen.random() < 0.2
        for call in range(chosen.randint(1, 12)):
            client, server = chosen.choice(clients), chosen.choice(self.pids)
            self.act("set", client, "label", 0 if is_shared else call)
            for name in ("send", "receive", "print"):
                self.act("set", client, name, str(not (is_silent and name == "receive")).lower())
            for one, other in ((client, server), (server, client)):
                if chosen.random() < 0.3:
                    self.act("print", one, call)
                self.act("send", one, model.show(other), call)
                self.act("receive", other, "value", call)
            if chosen.random() < 0.3:
                self.act("print", client, call)
            self.act("clear", client)
            self.act("clear", server)


class Alike(Run):
    """Processes put one token back again and again, so that their messages are alike, and report some of the sends."""

    def __init__(self, chosen):
        super().__init__(chosen)
        self.act("tracer", self.pids[0], "true")
        share, waits = chosen.choice([1, 0.9, 0.6]), chosen.random()
        for _ in range(chosen.randint(2, 30)):
            one, other = chosen.choice(self.pids[:3]), chosen.choice(self.pids[:3])
            is_reported = str(chosen.random() < share).lower()
            self.act("restore", one, 1, is_reported, "true", "true", 0, chosen.randrange(2), model.show(one))
            self.act("send", one, model.show(other), 1)
            if chosen.random() > waits:
                self.act("receive", chosen.choice([one, other]), "first")


class Judge:
    """What is true of an event of a run: of what its process did from one of its events on, up to it."""

    def __init__(self, run, place):
        self.run, (self.pid, self.index) = run, place
        self.event, self.number = run.streams[self.pid][self.index], run.number_of[place]
        self.content = content(self.event, self.event.to, self.event.value)

    def since(self, count):
        """The acts from that on by which so many events were reported."""
        return [act for act in self.run.acts[self.pid] if act.number < self.number and act.told >= count]

    def sends(self):
        return [it for it in self.run.sends if it.content == self.content and it.number < self.number]

    def holds(self, premises, count):
        """Whether the premises hold from that event on."""
        acts = self.since(count)
        fails = {1: any(act.takes and not act.is_reported for act in acts), 2: any(act.moves for act in acts),
                 3: any(act.begins for act in acts), 4: not all(it.is_reported for it in self.sends())}
        return not any(fails[premise] for premise in premises)

    def begins(self, count):
        """Whether its process made its token, or set its label, after it had reported so many events."""
        cause = self.run.cause[self.pid, self.index]
        return cause is not None and cause.begins and cause.told >= count

    def follows(self, index):
        cause = self.run.cause[self.pid, self.index]
        return cause is not None and cause.takes and cause.number == self.run.number_of[self.pid, index]

    def is_sent_before(self, place):
        sent = self.run.streams[place[0]][place[1]]
        is_like = sent.kind == "send" and content(sent, sent.to, sent.value) == self.content
        return is_like and self.run.number_of[place] < self.number

    def judge(self, sentence):
        """The form of the sentence, whether it is true, and whether its premises hold."""
        words, numbers = re.fullmatch(r"(.*?)(?: \(([0-9, ]*)\))?", sentence).groups()
        premises = [int(it) for it in numbers.split(", ")] if numbers else []
        if found := re.fullmatch(r"after <0\.(\d+)\.0> (\d+), line \d+", words):
            named = (0, int(found[1])), int(found[2])
            is_true = self.is_sent_before(named) if self.event.kind == "receive" else self.follows(named[1])
            return f"after .. ({numbers})", is_true, self.holds(premises, named[1] + 1)
        if words == slow_why.UNSENT:
            return words, any(not it.is_reported for it in self.sends()), True
        if words == slow_why.BEGINS:
            return f"{words} ({numbers})", self.begins(0), self.holds(premises, 0)
        if found := re.fullmatch(r"(?:since <\S+ (\d+), line \d+, )?" + slow_why.MOVED, words):
            acts = self.since(int(found[1]) + 1 if found[1] else 0)
            return "its process took ..", any(act.moves or act.takes and not act.is_reported for act in acts), True
        found = re.fullmatch(r"begins label (\d+) here, or set it on its token; it had last received <\S+ (\d+), line "
                             r"\d+ of label (\d+)", words)
        received = int(found[2])
        labels = self.event.label, self.run.streams[self.pid][received].label
        is_true = labels == (int(found[1]), int(found[3])) and self.begins(received + 1)
        return f"begins label .. ({numbers})", is_true, self.holds(premises, received + 1)


def sentence_of(line):
    """The words after the place, the kind, the serial and the value."""
    return re.fullmatch(r"<\S+ \d+, line \d+  \w+ +\{\d+,\d+\} \d+ (.*)", line)[1]


def judge(run, place, lines, counted):
    if lines == [slow_why.NO_ORDER]:
        assert not all(it.is_reported for it in run.sends), ("an order", list(model.write(run.streams, None)))
        counted[slow_why.NO_ORDER, "", True] += 1
        return
    sentence = sentence_of(lines[0])
    form, is_true, holds = Judge(run, place).judge(sentence)
    assert is_true or not holds, ("false", place, sentence, run.cause[place], list(model.write(run.streams, None)))
    counted[form, "premises hold" if holds else "premises fail", is_true] += 1


def ask(program, run, place):
    """The program's output about an event, which must be the model's."""
    (pid, i), bundle = place, "".join(line + "\n" for line in model.write(run.streams, None))
    for options in ((), ("--effects",)):
        words = [program, "why", model.show(pid), str(i), *options]
        done = subprocess.run(words, input=bundle, capture_output=True, text=True, check=False)
        lines = slow_why.why(run.streams, place, model.TOP, False, bool(options))
        status = int(lines == [slow_why.NO_ORDER])
        assert (done.stdout.splitlines(), done.returncode) == (lines, status), (place, options, bundle, done, lines)
    return slow_why.why(run.streams, place, model.TOP, False)


def places_of(run, program):
    places = [(pid, i) for pid, events in run.streams.items() for i in range(len(events))]
    return places if program == "model" else run.chosen.sample(places, min(ASKED, len(places)))


def main():
    program, most, number = sys.argv[1], int(sys.argv[2]), int(sys.argv[3]) if len(sys.argv) > 3 else 0
    counted, stamps, runs = Counter(), 0, 0
    while stamps < most:
        kind = (Calls, Wild, Wild, Calls, Wild, Alike)[number % 6]
        run = kind(random.Random(f"why {number}"))
        for place in places_of(run, program):
            lines = slow_why.why(run.streams, place, 1, False) if program == "model" else ask(program, run, place)
            judge(run, place, lines, counted)
            stamps += run.streams[place[0]][place[1]].kind != "receive"
        number, runs = number + 1, runs + 1
    print(f"{stamps} sends and prints of {runs} runs; in none is a sentence false whose premises hold")
    for (form, holds, is_true), count in sorted(counted.items()):
        print(f"{count:7} {form}: {holds}, {'true' if is_true else 'false'}")


if __name__ == "__main__":
    main()
