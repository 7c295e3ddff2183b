#!/usr/bin/env python3
"""Holds what `gemshowal why` says to all runs of small streams: tests/node_said.py GEMSHOWAL [STREAMS [SEED]]

A run is searched for each way in which a process of a standard node can have reported a few events, with whatever
processes that report nothing; or in which it can have reported its prints but no receives, if all messages to it were
reported when they were sent. Counted is what is true in all of them, and how much of it `why` says as a fact; what it says
may be false in no run in which the premises hold that it names."""
import itertools
import json
import random
import re
import subprocess
import sys
import tempfile
from collections import Counter, defaultdict, namedtuple
from concurrent.futures import ThreadPoolExecutor
from pathlib import Path

MOST_STATES = 20_000
MOST_SILENT_STATES = 4_000
MOST_UNSAID = 0.05  # The share of what is true in all runs.
HOME, LOST = "home", "lost"

# kind: print or receive. The messages that a process receives come from one that reports nothing.
Event = namedtuple("Event", "kind label prev this")
# Its origin is the index of the receive that brought it, or HOME, or LOST.
Token = namedtuple("Token", "label prev this origin")
State = namedtuple("State", "done clock last token held")
# The acts of a process beside its events: put tokens back, set these labels before its next event, print and receive
# unreported, and before which events it may receive so.
Rules = namedtuple("Rules", "puts_back labels prints receives")
START = State(0, 0, 0, None, frozenset())


# THE RUNS


def steps(state, events, rules):
    """The states that one act leads to, each with the stamp that it reports, if it does."""
    done, clock, last, token, held = state
    top = max(event.this for event in events)

    def after(token, clock=clock, last=last, done=done, stamp=None):
        return State(done, clock, last, token, held | {token} if token and rules.puts_back else held), stamp

    if token:
        yield after(None)
    for label in rules.labels(done):
        yield after(token._replace(label=label, origin=HOME) if token else Token(label, last, 0, HOME))
    for old in held:
        yield after(old, old.this, old.prev)
    if rules.prints and token and clock < top:
        yield after(token._replace(prev=last, this=clock + 1), clock + 1)
    if rules.receives(done):
        for this in range(1, top + 1):
            yield after(Token(events[0].label, 0, this, LOST), max(clock, this), this)
    event = events[done]
    if event.kind == "receive":
        yield after(Token(event.label, event.prev, event.this, done), max(clock, event.this), event.this, done + 1)
    elif token and (token.label, last, clock + 1) == event[1:]:
        yield after(token._replace(prev=last, this=clock + 1), clock + 1, last, done + 1, (done, token.origin))


def runs(events, rules, starts=(START,)):
    """The origins that each stamp has in some run through all the events, None if that are too many states."""
    edges, seen, waiting = defaultdict(list), set(starts), list(starts)
    while waiting:
        state = waiting.pop()
        if state.done == len(events):
            continue
        for after, stamp in steps(state, events, rules):
            edges[after].append((state, stamp))
            if after not in seen:
                seen.add(after)
                waiting.append(after)
        if len(seen) > MOST_STATES:
            return None
    origins, waiting = defaultdict(set), [state for state in seen if state.done == len(events)]
    is_possible, good = bool(waiting), set(waiting)
    while waiting:
        for before, stamp in edges[waiting.pop()]:
            if stamp:
                origins[stamp[0]].add(stamp[1])
            if before not in good:
                good.add(before)
                waiting.append(before)
    return dict(origins) if is_possible else {}


def own_labels(events):
    """The labels that a process may set before an event: new ones, with which it prints before it receives them."""
    def labels(done):
        rest, had = events[done:], {event.label for event in events[:done]}
        firsts = {event.label: event.kind for event in reversed(rest)}
        return [label for label, kind in firsts.items() if kind == "print" and label not in had]
    return labels


def never(_):
    return False


def whole_reports(events):
    """The origins in all runs in which the process reported all, and put back and set what was its own."""
    return runs(events, Rules(True, own_labels(events), False, never))


def without_lost(events, gap):
    """Whether a run without put-backs loses no receive before this event."""
    labels = {event.label for event in events}
    return bool(runs(events, Rules(False, lambda _: labels, True, lambda done: done != gap)))


def stretch(events, begin, i, may_set):
    """The origins of a print in all runs that lose no receive and put nothing back since the event before `begin`."""
    part, top = events[begin:i + 1], max(event.this for event in events)
    starts = [START]
    if begin:
        before = events[begin - 1]
        token = Token(before.label, before.prev, before.this, begin - 1)
        is_receive = before.kind == "receive"
        clocks = range(before.this, top + 1) if is_receive else [before.this]
        last = before.this if is_receive else before.prev
        starts = [State(0, clock, last, token, frozenset()) for clock in clocks]
    labels = {event.label for event in part} if may_set else ()
    found = runs(part, Rules(False, lambda _: labels, True, never), starts)
    return found.get(len(part) - 1, set())


# RUNS IN WHICH NO RECEIVE IS REPORTED

# The acts of a process in their order: its tokens, the messages that it received, and the labels that its tokens bore,
# that it gave, and with which it printed.
Silent = namedtuple("Silent", "done clock last token held taken borne given stamped")


def silent_steps(state, prints, messages, may_give, are_own):
    """The states that one act leads to, each with the stamp that it reports, if it does. Where its labels are its own, they
    are new when it gives them, and it prints with them before it receives them."""
    token = state.token

    def with_token(token, **changes):
        return state._replace(token=token, held=state.held | {token}, borne=state.borne | {token.label}, **changes), None

    if token:
        yield state._replace(token=None), None
    for label in {event.label for event in prints}:
        if may_give(label) and (not token or token.label != label) and not (are_own and label in state.borne):
            given = token._replace(label=label, origin=HOME) if token else Token(label, state.last, 0, HOME)
            yield with_token(given, given=state.given | {label})
    for old in state.held:
        yield with_token(old, clock=old.this, last=old.prev)
    for index, (label, prev, this) in enumerate(messages):
        if index not in state.taken and not (are_own and label in state.given - state.stamped):
            yield with_token(Token(label, prev, this, index), clock=max(state.clock, this), last=this, taken=state.taken | {index})
    if token and state.done < len(prints) and (token.label, state.last, state.clock + 1) == prints[state.done][1:]:
        after, _ = with_token(token._replace(prev=state.last, this=state.clock + 1), clock=state.clock + 1, done=state.done + 1,
                              stamped=state.stamped | {token.label})
        yield after, (state.done, token.origin)


def silent_runs(prints, messages, may_give, are_own):
    """The origins that each print has in some run through all of them, None if that are too many states."""
    none = frozenset()
    start = Silent(0, 0, 0, None, none, none, none, none, none)
    edges, seen, waiting = defaultdict(list), {start}, [start]
    while waiting:
        state = waiting.pop()
        for after, stamp in silent_steps(state, prints, messages, may_give, are_own):
            edges[after].append((state, stamp))
            if after not in seen:
                seen.add(after)
                waiting.append(after)
        if len(seen) > MOST_SILENT_STATES:
            return None
    origins, waiting = defaultdict(set), [state for state in seen if state.done == len(prints)]
    good = set(waiting)
    while waiting:
        for before, stamp in edges[waiting.pop()]:
            if stamp:
                origins[stamp[0]].add(stamp[1])
            if before not in good:
                good.add(before)
                waiting.append(before)
    return origins


def silent_stream(rng):
    """The prints that a process reports of random acts, and the messages to it, some of which it didn't receive."""
    messages = [(rng.choice([1, 1, 2]), prev, prev + rng.choice([1, 1, 2])) for prev in rng.choices([0, 0, 1, 2], k=rng.choice([1, 2, 2]))]
    prints, token, clock, last, saved, left = [], None, 0, 0, [], messages[:]
    labels = itertools.count(2)
    for _ in range(7):
        chance = rng.random()
        if chance < 0.3 and left:
            token = Token(*left.pop(rng.randrange(len(left))), None)
            clock, last = max(clock, token.this), token.this
        elif chance < 0.65 and token and len(prints) < 3:
            clock, token = clock + 1, token._replace(prev=last, this=clock + 1)
            prints.append(Event("print", *token[:3]))
        elif chance < 0.8 and saved:
            token = rng.choice(saved)
            clock, last = token.this, token.prev
        elif chance < 0.85:
            token = None
        elif chance > 0.92:
            label = next(labels)
            token = token._replace(label=label) if token else Token(label, last, 0, None)
        saved += [token] if token and rng.random() < 0.4 else []
    return prints, messages


# THE STREAMS


def stream(rng):
    """The events that a process reports of random acts, some unreported, and whether it reported all."""
    events, token, clock, last, saved, is_whole = [], None, 0, 0, [], rng.random() < 0.5
    labels, set_before = itertools.count(2), [1]
    while len(events) < 5:
        chance, is_told = rng.random(), is_whole or rng.random() < 0.7
        if chance < 0.3:
            prev = rng.choice([0, 0, 1, 2])
            token = Token(rng.choice(set_before), prev, prev + rng.choice([1, 1, 2]), None)
            clock, last = max(clock, token.this), token.this
            events += [Event("receive", *token[:3])] * is_told
        elif chance < 0.65 and token:
            clock, token = clock + 1, token._replace(prev=last, this=clock + 1)
            events += [Event("print", *token[:3])] * is_told
        elif chance < 0.75 and saved:
            token = rng.choice(saved)
            clock, last = token.this, token.prev
        elif chance < 0.85:
            token = None
        else:
            label = rng.choice([next(labels), rng.choice(set_before)])
            set_before.append(label)
            token = token._replace(label=label) if token else Token(label, last, 0, None)
        saved += [token] if token and rng.random() < 0.4 else []
    return events[:rng.choice([2, 3, 4, 4, 5])]


def messages(rng):
    """What two processes report of sends and receives, of which some are alike."""
    streams, queue = {0: [], 1: []}, []
    for _ in range(rng.randint(4, 8)):
        is_receive = bool(queue) and rng.random() < 0.5
        content = queue.pop(rng.randrange(len(queue))) if is_receive else tuple(rng.randrange(2) for _ in range(3))
        if not is_receive:
            queue.append(content)
        if rng.random() < 0.75:
            streams[content[is_receive]].append(("receive" if is_receive else "send", *content))
    return streams


def may_be_reported(streams, pid, i):
    """Whether the send of a receive may have been reported: in some order that many alike ones came before."""
    content = streams[pid][i][1:]
    received = sum(it == ("receive", *content) for it in streams[pid][:i + 1])
    before = [it for other, events in streams.items() for it in (events[:i] if other == pid else events)]
    return sum(it == ("send", *content) for it in before) >= received


# WHAT IS SAID

# The sentence of `why` about an event: after, begins, other_label, several, moved, unsent or perhaps; the index that it names,
# two of several; its premises; and the index of the event since which it says that counters were moved, 0 for the beginning.
Said = namedtuple("Said", "cause named premises moved")
EITHER = re.compile(r"(?:follows \S+#(\d+)|begins this chain) or (?:follows \S+#(\d+)|begins this chain), or another event")


def text_of(streams):
    lines = ["seqtrace 1", "process <0.1.0>"]
    for n, events in enumerate(streams):
        lines.append(f"process <0.{n + 2}.0>")
        for i, it in enumerate(events):
            kind, ends = ("print", f"<0.{n + 2}.0>,[]") if it.kind == "print" else ("'receive'", f"<0.1.0>,<0.{n + 2}.0>")
            lines.append(f"{{seq_trace,{it.label},{{{kind},{{{it.prev},{it.this}}},{ends},{1000 * n + i}}}}}")
    return "\n".join(lines) + "\n"


def text_of_messages(batch):
    lines = ["seqtrace 1"]
    for n, streams in enumerate(batch):
        for pid, events in streams.items():
            lines.append(f"process <0.{2 * n + pid + 2}.0>")
            for kind, sender, to, value in events:
                word = "'receive'" if kind == "receive" else kind
                ends = f"<0.{2 * n + sender + 2}.0>,<0.{2 * n + to + 2}.0>"
                lines.append(f"{{seq_trace,1,{{{word},{{0,1}},{ends},{value}}}}}")
    return "\n".join(lines) + "\n"


def text_of_prints(batch):
    """What processes print, and one process sends to them."""
    lines = ["seqtrace 1", "process <0.1.0>"]
    for n, (_, messages) in enumerate(batch):
        for label, prev, this in messages:
            lines.append(f"{{seq_trace,{label},{{send,{{{prev},{this}}},<0.1.0>,<0.{n + 2}.0>,{len(lines)}}}}}")
    for n, (prints, _) in enumerate(batch):
        lines.append(f"process <0.{n + 2}.0>")
        lines += [f"{{seq_trace,{it.label},{{print,{{{it.prev},{it.this}}},<0.{n + 2}.0>,[],{n}}}}}" for it in prints]
    return "\n".join(lines) + "\n"


class Program:
    def __init__(self, path, text):
        self.path, self.folder = path, tempfile.TemporaryDirectory()
        self.file = Path(self.folder.name, "said.seqtrace")
        self.file.write_text(text)

    def why(self, place, *words):
        words = [self.path, "why", *words, self.file, place]
        return subprocess.run(words, capture_output=True, text=True, check=False).stdout

    def said(self, place):
        link = json.loads(self.why(place, "--json"))["events"][0]
        cause, after, named, moved = link["cause"], link["after"], None, link["moved"]
        if moved:
            moved = int(moved["since"].rsplit("#")[-1]) + 1 if moved["since"] else 0
        if link["grade"] == "perhaps":
            return Said("perhaps", None, [], moved)
        if cause == "unsent" or after and after.startswith("the send of "):
            return Said("unsent", None, [], None)
        if after:
            named = int(after.rsplit("#")[-1])
        elif cause == "several":
            named = [int(it) if it else HOME for it in EITHER.search(self.why(place)).groups()]
        return Said(cause, named, link["premises"], moved)

    def all_said(self, places):
        with ThreadPoolExecutor() as threads:
            return dict(zip(places, threads.map(self.said, places)))


# THE COMPARISON


def is_false(said, events, i, whole):
    """Whether the sentence about a print is false in some run in which its premises hold."""
    claimed = said.named if said.cause == "after" else HOME
    if said.moved is not None and stretch(events, said.moved, i, may_set=True):
        return True
    if said.cause in ("perhaps", "several", "moved"):
        return False  # Each leaves open that it is another event.
    if 5 in said.premises:
        return bool(whole) and not whole[i] <= {claimed}
    begin = 0 if said.named is None else said.named + 1
    return not stretch(events, begin, i, may_set=3 not in said.premises) <= {claimed}


def compare(events, said, counted):
    """Counts what is true of a stream in all runs, and what of it is said; returns the places of false sentences."""
    whole, false = whole_reports(events), []
    if whole is None:
        counted["streams too large"] += 1
        return []
    is_fitting = without_lost(events, None)
    for i, event in enumerate(events):
        if is_fitting and not without_lost(events, i):
            counted["a receive was lost here"] += 1
            counted["a receive was lost here, said"] += said[i].moved == i
            counted["a receive was lost here, said with perhaps"] += said[i].cause == "perhaps"
            counted["a receive was lost here, or a token put back, which is said"] += 5 in said[i].premises
        if event.kind != "print":
            continue
        false += [i] * is_false(said[i], events, i, whole)
        if whole and len(whole[i]) == 1:
            counted["one origin"] += 1
            counted["one origin, said"] += said[i].cause in ("after", "begins", "other_label")
            counted["one origin, several said"] += said[i].cause == "several"
        elif whole:
            counted["more than one origin"] += 1
    return false


def compare_messages(batch, said, counted):
    """Counts the sends that nobody can have reported; returns the receives of which that is falsely said."""
    false = []
    for place, (streams, pid, i) in batch.items():
        is_unsent = said[place].cause == "unsent"
        if may_be_reported(streams, pid, i):
            false += [(streams, pid, i)] * is_unsent
            continue
        _, sender, to, _ = streams[pid][i]
        which = "a send to itself" if sender == to else "a send"
        counted[f"{which} wasn't reported"] += 1
        counted[f"{which} wasn't reported, said"] += is_unsent
    return false


def compare_prints(prints, messages, said, counted):
    """Counts the prints of which all runs have one origin, and how many of these are said; returns the places of false
    sentences. A run is of own labels, or one in which the process didn't give the label of the print."""
    false = []
    for i, (event, it) in enumerate(zip(prints, said)):
        def is_other(label, given=event.label):
            return label != given
        own, foreign = (silent_runs(prints, messages, may_give, True) for may_give in (lambda _: True, is_other))
        if own is None or foreign is None:
            counted["streams too large"] += 1
            return false
        expected = foreign[i] or own[i]
        what = "one origin, without receives" if len(expected) == 1 else "more than one origin, without receives"
        counted[what] += bool(expected)
        counted[f"{what}, said"] += bool(expected) and it.cause in (("message", "begins") if len(expected) == 1 else ("several",))
        if it.cause in ("message", "begins") and 8 in it.premises:
            are_own, may_give = 7 in it.premises, is_other if 9 in it.premises else lambda _: True
            under = silent_runs(prints, messages, may_give, are_own)
            counted["one origin, without receives, said of too many runs"] += under is None
            false += [i] * (under is not None and not under[i] <= {HOME if it.cause == "begins" else it.named})
    return false


def main():
    number, seed = (int(it) for it in (sys.argv[2:] + ["60", "1"][len(sys.argv) - 2:])[:2])
    rng, counted, false = random.Random(seed), Counter(), []
    streams = [events for events in (stream(rng) for _ in range(number)) if events]
    program = Program(sys.argv[1], text_of(streams))
    said = program.all_said([f"<0.{n + 2}.0>#{i}" for n, events in enumerate(streams) for i in range(len(events))])
    for n, events in enumerate(streams):
        own = [said[f"<0.{n + 2}.0>#{i}"] for i in range(len(events))]
        false += [(events, i, own[i]) for i in compare(events, own, counted)]
    batch = [messages(rng) for _ in range(number)]
    program = Program(sys.argv[1], text_of_messages(batch))
    receives = {f"<0.{2 * n + pid + 2}.0>#{i}": (streams, pid, i) for n, streams in enumerate(batch)
                for pid, events in streams.items() for i, event in enumerate(events) if event[0] == "receive"}
    false += compare_messages(receives, program.all_said(list(receives)), counted)
    silent = [it for it in (silent_stream(rng) for _ in range(number)) if it[0]]
    program = Program(sys.argv[1], text_of_prints(silent))
    said = program.all_said([f"<0.{n + 2}.0>#{i}" for n, (prints, _) in enumerate(silent) for i in range(len(prints))])
    sent = 0
    for n, (prints, mail) in enumerate(silent):
        own = [said[f"<0.{n + 2}.0>#{i}"] for i in range(len(prints))]
        own = [it._replace(named=it.named - sent) if it.cause == "message" else it for it in own]
        false += [(prints, mail, i, own[i]) for i in compare_prints(prints, mail, own, counted)]
        sent += len(mail)
    for it in false[:20]:
        print("false:", it)
    for what, count in sorted(counted.items()):
        print(f"{count:7} {what}")
    wanted = ("one origin", "a send wasn't reported", "a send to itself wasn't reported", "a receive was lost here",
              "one origin, without receives")
    is_little = any(counted[f"{what}, said"] < (1 - MOST_UNSAID) * counted[what] for what in wanted)
    return bool(false) or is_little or not counted["one origin"] or not counted["one origin, without receives"]


if __name__ == "__main__":
    sys.exit(main())
