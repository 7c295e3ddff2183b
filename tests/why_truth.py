#!/usr/bin/env python3
"""Judges what `gemshowal why` says of traces whose truth is known: tests/why_truth.py GEMSHOWAL [--lose SEED] NAME..

NAME.truth says what each process did (erlang/test/seqaudit_truth.erl), and messages carry the number of the message
whose token their sender had. Where no message says it, a process has the token that it received last. Each event is
asked about, with all that follows it at once. No sentence may be false if the premises hold that it names, and no event
may be left out. With --lose copies are judged that lack one receive in twenty. The last line is a row of the table in
README.md, whose head is HEAD."""
import json
import random
import re
import shutil
import subprocess
import sys
import tempfile
from collections import Counter, defaultdict, namedtuple
from concurrent.futures import ThreadPoolExecutor
from pathlib import Path

EVENT = re.compile(r"\{seq_trace,(\d+),\{(send|'receive'|answer|print),\{(-?\d+),(-?\d+)\},([^,]*),([^,]*),(\d+)\}\}")
MARK = re.compile(r"\{m,(\d+),([a-z0-9]+),(true|false)\}")
SPAWN = re.compile(r"\{<([\d.]+)>,\{(\w+),(\w+)\}\}")
REQUESTED = re.compile(r"\{#Ref<\d+\.([\d.]+)>,(\{m,\S*?\}),(\{m,\S*?\})\}")
REFERENCE = re.compile(r"\{(spawn_request|spawn_reply),#Ref<\d+\.([\d.]+)>")
EITHER = re.compile(r"(?:follows (\S.*?#\d+)|begins this chain) or (?:follows (\S.*?#\d+)|begins this chain), or another event")
HEAD = ("traces", "doesn't fit", "fits if", "handed over", "put back or lost", "probably lost", "none lost", "events", "sends and prints", "facts", "several", "perhaps", "moved",
        "false as a premise fails", "neither of several", "perhaps not", "not judged", "false")
LOST = 0.05  # The share of receives that a copy lacks.

Event = namedtuple("Event", "kind label sender to term")
# An act of a process: an event that was reported, by its index, or another act, by its word.
Did = namedtuple("Did", "word index")


class Trace:
    """A trace, and for each process what it did, in one order."""

    def __init__(self, name):
        self.name = name
        self.terms, self.named = read_terms(Path(name + ".terms"))
        self.streams = self.read_streams(Path(name + ".seqtrace"))
        self.log, self.requested = defaultdict(list), {}
        for line in Path(name + ".truth").read_text().splitlines():
            pid, word, what = line.split(" ", 2)
            self.log[pid].append((word, what))
            if found := REQUESTED.fullmatch(what):
                self.requested["spawn_request", found[1]], self.requested["spawn_reply", found[1]] = found[2], found[3]
        # The places of each message: one that went to two aliases has two sends and two receives.
        self.numbers = numbers = {}
        for pid, events in self.streams.items():
            for i, event in enumerate(events):
                if mark := self.mark(event.term):
                    numbers.setdefault((event.kind, int(mark[1])), []).append((pid, i))
        self.pids = {}
        for pid, entries in self.log.items():
            places = [numbers.get((KINDS.get(word), int(what)), ()) for word, what in entries if word in KINDS]
            self.pids.update({pid: own[0][0] for own in places if len({place[0] for place in own}) == 1})
        self.spawns = {}
        born = {SPAWN.fullmatch(what)[1] for entries in self.log.values() for word, what in entries if word == "spawned"}
        self.did = {self.pids[pid]: self.all_done(self.pids[pid], entries, pid[1:-1] in born)
                    for pid, entries in self.log.items() if pid in self.pids}
        # Processes of which a message that they received wasn't reported when it was sent.
        self.unheard = {self.pids[pid] for pid, entries in self.log.items() if pid in self.pids
                        if any(word == "received" and ("send", int(what)) not in numbers for word, what in entries)
                        or pid[1:-1] in born and not self.request_of(self.pids[pid])}

    def read_streams(self, path):
        streams, events = {}, None
        for line in path.read_text().splitlines():
            if line.startswith("process "):
                events = streams.setdefault(line.split()[1], [])
            elif found := EVENT.match(line):
                kind = "receive" if found[2] in ("'receive'", "answer") else found[2]
                events.append(Event(kind, found[1], found[5], found[6], self.terms.get(found[7], "")))
        return streams

    def mark(self, term):
        """What a message or print tells of its cause. The log tells it of a request to spawn and its reply."""
        found = REFERENCE.match(term)
        return MARK.search(self.requested.get((found[1], found[2]), "") if found else term)

    def is_request(self, event):
        """Whether an event is of a request to spawn for whose reply its process waits."""
        return event.term.startswith("{spawn_request,") and not self.mark(event.term)

    def is_reply(self, event):
        return event.kind == "receive" and event.term.startswith("{spawn_reply,") and not self.mark(event.term)

    def all_done(self, pid, entries, is_born):
        """What a process did: the entries of its log, and between them the events that no entry is of. One that was
        spawned took the token of the request."""
        events, did, placed = self.streams[pid], [], 0
        if is_born and not any(self.is_request(event) and event.to == pid for event in events):
            did.append(Did("unreported receive", None))

        def reach(index):
            nonlocal placed
            did.extend(Did("event", i) for i in range(placed, index + 1))
            placed = max(placed, index + 1)

        for word, what in entries:
            if word in KINDS:
                own = [i for of, i in self.numbers.get((KINDS[word], int(what)), ()) if of == pid]
                if own:
                    reach(next((i for i in own if i >= placed), own[-1]))
                else:
                    did.append(Did("unreported " + KINDS[word], None))
            elif word == "spawned":
                child, cause, own = SPAWN.fullmatch(what).groups()
                child = self.pids.get(f"<{child}>", f"<{child}>")
                # The trace has another name for a child on another node, which isn't known if that reported nothing.
                is_known = child in self.streams or child.startswith("<0.")
                children = {child} if is_known else {end for it in events for end in (it.to, it.sender)}
                asked = (i for i in range(placed, len(events)) if self.is_request(events[i]) and events[i].to in children)
                replied = (i for i in range(placed, len(events)) if self.is_reply(events[i]) and events[i].sender in children)
                if (request := next(asked, None)) is not None:
                    self.spawns[pid, request] = cause, own == "true"
                    reach(request + self.is_answer(pid, request + 1))
                elif (reply := next(replied, None)) is not None:
                    reach(reply)
                did.append(Did(word, None))
            else:
                did.append(Did(word, None))
        reach(len(events) - 1)
        return did

    def is_answer(self, pid, i):
        """Whether the event is the answer of a spawn, which leaves the token as it was."""
        events = self.streams[pid]
        return (0 < i < len(events) and self.is_reply(events[i]) and events[i - 1].to == events[i].sender
                and self.is_request(events[i - 1]) and "spawn_init" not in events[i - 1].term)

    def origin(self, pid, i):
        """The index of the receive that a send or print truly follows, "home", or None if the trace lacks that."""
        events, mark = self.streams[pid], self.mark(self.streams[pid][i].term)
        cause = (mark[2], mark[3] == "true") if mark else self.spawns.get((pid, i))
        if cause is None:
            return self.last_received(pid, i)
        if cause[1] or cause[0] == "begins":
            return "home"
        if cause[0] == "spawned":
            return next((j for j in range(i) if events[j].to == pid and self.is_request(events[j])), None)
        received = [j for of, j in self.numbers.get(("receive", int(cause[0])), ()) if of == pid and j < i]
        return received[-1] if received else None

    def sources(self, pid, i):
        """The place of the send whose message gave a send or print its token, and of those like it, "unreported" if that isn't
        in the trace, or "home"; None if nothing says it."""
        event, mark = self.streams[pid][i], self.mark(self.streams[pid][i].term)
        cause = (mark[2], mark[3] == "true") if mark else self.spawns.get((pid, i))
        if cause is None:
            request = self.request_of(pid) if event.term.startswith("{spawn_reply,") else None
            return request and [request]
        if cause[1] or cause[0] == "begins":
            return ["home"]
        if cause[0] == "spawned":
            return [self.request_of(pid) or "unreported"]
        return self.numbers.get(("send", int(cause[0])), ["unreported"])

    def request_of(self, pid):
        """The place of the request to spawn this process, or None if it isn't in the trace."""
        places = ((other, i) for other, events in self.streams.items() for i, event in enumerate(events)
                  if event.kind == "send" and event.to == pid and self.is_request(event))
        return next(places, None)

    def gave_label(self, pid, i):
        """Whether a process made a token of the label of this event, or set the label on one, as far as its events tell."""
        events = self.streams[pid]
        return any(events[j].label == events[i].label and events[j].kind != "receive" and self.sources(pid, j) == ["home"]
                   for j in range(len(events)))

    def last_received(self, pid, i):
        """The receive of the token of a process that leaves its token alone, but for what it prints of a beginning."""
        for j in range(i, -1, -1):
            event = self.streams[pid][j]
            if event.kind == "print" and event.term.startswith("{'begin',"):
                return "home"
            if event.kind == "receive" and not self.is_answer(pid, j):
                return j
        return None

    def words(self, pid, after, i):
        """The words of what a process did between two of its events, or from the beginning on."""
        did = self.did.get(pid)
        if did is None:
            return {"spawned" for j in range((after or 0), i) if self.is_answer(pid, j)}
        begin = 0 if after is None else did.index(Did("event", after))
        return {it.word for it in did[begin:did.index(Did("event", i))]}


KINDS = {"sent": "send", "received": "receive", "printed": "print"}
MOVES = {"unreported receive", "put", "spawned"}
RAISES = {"put", "spawned", "handed_over"}


def read_terms(path):
    """The texts of messages by their numbers, and the processes by their names."""
    rows = [line.split("\t") for line in path.read_text(errors="replace").splitlines()]
    return {row[1]: row[2] for row in rows if row[0] == "value"}, {row[2]: row[1] for row in rows if row[0] == "process"}


def holds(trace, pid, after, i, premises):
    """Whether the premises hold of an event and the receive that its sentence names."""
    if set(premises) & {1, 2, 3}:
        between = trace.words(pid, after, i)
        broken = {1: {"unreported receive"}, 2: {"put", "spawned"}, 3: {"set"}}
        if any(between & broken[premise] for premise in premises if premise in broken):
            return False
    everything = {it.word for it in trace.did.get(pid, [])}
    if 5 in premises and any(word.startswith("unreported") for word in everything):
        return False
    if 8 in premises and (pid in trace.unheard or {"unreported send", "unreported print"} & everything):
        return False
    if 9 in premises and trace.gave_label(pid, i):
        return False
    return not {6, 7} & set(premises) or "handed_over" not in everything


class Judge:
    def __init__(self, gemshowal, name):
        self.gemshowal, self.trace, self.counted = gemshowal, Trace(name), Counter(traces=1)
        self.places, self.false = {}, []

    def run(self, *words):
        return subprocess.run([self.gemshowal, *words], capture_output=True, text=True, check=False)

    def judge(self):
        """Asks of events until each was said to follow something, and judges each sentence."""
        links = {}
        self.judge_audit(json.loads(self.run("audit", "--json", self.trace.name).stdout))
        left = [(pid, i) for pid, events in self.trace.streams.items() for i in range(len(events))]
        for place in left:
            if place not in links:
                asked = self.run("why", "--json", "--effects", "--across", self.trace.name, "%s#%d" % place)
                for it in json.loads(asked.stdout)["events"]:
                    if it["pid"] is not None:
                        self.places[it["event"]] = it["pid"], it["index"]
                        links[it["pid"], it["index"]] = it
        for place in left:
            self.counted["events"] += 1
            if place not in links:
                self.false.append(("left out", place))
            else:
                self.judge_link(place, links[place])

    def judge_audit(self, told):
        """Counts what `audit` says, and whether there was a lost receive where it says that there probably was. A send of which
        it says that nobody reported it mustn't be there, and something must have raised a counter that it calls raised."""
        is_lost = any(it.word == "unreported receive" for did in self.trace.did.values() for it in did)
        is_probably_lost = bool(re.search("probably [^,;]*receive", told["headline"]))
        self.counted["fits if"] += told["result"] == "unexplained"
        self.counted["doesn't fit"] += told["result"] == "never"
        self.counted["handed over"] += told["result"] == "fits" and bool(told.get("handed_over"))
        self.counted["put back or lost"] += bool(re.search(r", or [\d,]+ receive", told["headline"]))
        self.counted["probably lost"] += is_probably_lost
        self.counted["none lost"] += is_probably_lost and not is_lost
        unsent = [it["received_as"] for it in told.get("unreported", ()) if it["certain"] and it.get("received_as")]
        for it in unsent + told.get("unsent", []):
            mark = self.trace.mark(self.trace.streams[it["pid"]][it["index"]].term)
            if mark and ("send", int(mark[1])) in self.trace.numbers:
                self.false.append(("its send was reported", it))
        for name in {*told.get("silent_counts", ()), *told.get("jumps", ())}:
            did = self.trace.did.get(self.trace.named.get(name))
            if did is not None and not any(it.word in RAISES or it.word.startswith("unreported") for it in did):
                self.false.append(("nothing raised its counter", name))

    def judge_link(self, place, link):
        pid, i = place
        event, cause = self.trace.streams[pid][i], link["cause"]
        if event.kind != "receive":
            self.counted["sends and prints"] += 1
            grade = "perhaps" if link["grade"] == "perhaps" else cause
            self.counted[grade if grade in ("perhaps", "several", "moved") else "facts"] += 1
        is_true, after = (self.receive if event.kind == "receive" else self.stamp)(place, link)
        if link["moved"] and self.is_moved(place, link["moved"]["since"]) is False:
            self.false.append(("not moved", place, event, link))
        if is_true is None:
            self.counted["not judged"] += 1
        elif not is_true and link["grade"] == "perhaps":
            self.counted["perhaps not"] += 1
        elif not is_true and not holds(self.trace, pid, after, i, link["premises"]):
            self.counted["false as a premise fails"] += 1
        elif not is_true:
            self.false.append((place, event, link, self.trace.origin(pid, i), self.trace.sources(pid, i)))

    def receive(self, place, link):
        """Whether what is said of a receive is true, and no place. A message without a mark is known by its content."""
        event = self.trace.streams[place[0]][place[1]]
        mark, named = self.trace.mark(event.term), self.places.get(link["after"])
        if mark:
            sends = self.trace.numbers.get(("send", int(mark[1])), [None])
            if link["cause"] == "several":
                return bool({*self.either(place)} & {*sends}), None
            return named in sends, None
        if named is None:
            return None, None
        sent = self.trace.streams[named[0]][named[1]]
        return sent == event._replace(kind="send", to=sent.to), None

    def stamp(self, place, link):
        """Whether what is said of a send or print is true, and the index of the receive that is named."""
        pid, i = place
        origin, sources, cause = self.trace.origin(pid, i), self.trace.sources(pid, i), link["cause"]
        if link["grade"] == "perhaps":
            return self.is_as_completed(place), None
        named = self.places.get(link["after"], (pid, None))
        after = named[1] if named[0] == pid else None
        if cause == "moved":
            return self.is_moved(place, link["moved"]["since"]), None
        if cause == "several":
            is_among = bool({*(sources or ()), origin if origin == "home" else (pid, origin)} & {*self.either(place)})
            self.counted["neither of several"] += not is_among
            return is_among or None, None
        if cause == "message":
            return (None if sources is None else named in sources), None
        if origin is None:
            return (False if cause == "after" else sources and sources == ["home"]), after
        return origin == (after if cause == "after" else "home"), after

    def either(self, place):
        """The two that an event is said to follow, by their places, or "home"."""
        found = EITHER.search(self.run("why", self.trace.name, "%s#%d" % place).stdout)
        return [self.places[name] if name else "home" for name in found.groups()]

    def is_as_completed(self, place):
        """Whether a send or print truly follows the message whose receive the completion adds before it; of an unknown message
        whether its receive wasn't reported."""
        own = self.trace.mark(self.trace.streams[place[0]][place[1]].term)
        steps = json.loads(self.run("why", "--json", self.trace.name, "%s#%d" % place).stdout)["events"]
        message = steps[1]["message"]
        if not own or own[3] == "true" or own[2] == "begins":
            return False if own else None
        if message is None:
            return own[2] == "spawned" or ("receive", int(own[2])) not in self.trace.numbers
        if own[2] == "spawned":
            return message.startswith("{spawn_request,")
        added = self.trace.mark(message)
        return bool(added) and added[1] == own[2]

    def is_moved(self, place, since):
        """Whether something that moves counters happened between this event of a process and the one at this place, or None
        if the trace has no event by which the log of the process is known."""
        after = self.places[since][1] if since else None
        is_moved = bool(self.trace.words(place[0], after, place[1]) & MOVES)
        return is_moved if is_moved or place[0] in self.trace.did else None


def without_some_receives(name, seed, folder):
    """The name of a copy that lacks some receives."""
    copy, rng = str(Path(folder, "copy")), random.Random(f"{seed} {'/'.join(Path(name).parts[-2:])}")
    for kind in (".terms", ".truth"):
        shutil.copy(name + kind, copy + kind)
    lines = Path(name + ".seqtrace").read_text().splitlines(keepends=True)
    kept = [line for line in lines if "{'receive'," not in line or rng.random() >= LOST]
    Path(copy + ".seqtrace").write_text("".join(kept))
    return copy


def judged(gemshowal, name, seed=None):
    """The counts of a trace, or of a copy by this seed, and its false sentences."""
    with tempfile.TemporaryDirectory() as folder:
        judge = Judge(gemshowal, name if seed is None else without_some_receives(name, seed, folder))
        judge.judge()
    judge.counted["false"] = len(judge.false)
    return judge.counted, [(name, *it) for it in judge.false]


def main():
    gemshowal, names, seed = sys.argv[1], sys.argv[2:], None
    if names[:1] == ["--lose"]:
        seed, names = names[1], names[2:]
    with ThreadPoolExecutor() as threads:
        found = list(threads.map(lambda name: judged(gemshowal, name, seed), names))
    counted = sum((counts for counts, _ in found), Counter())
    for it in [it for _, false in found for it in false][:20]:
        print("false:", *it)
    print("|", " | ".join(str(counted[it]) for it in HEAD), "|")
    return counted["false"] > 0


if __name__ == "__main__":
    sys.exit(main())
