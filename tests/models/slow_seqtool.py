#!/usr/bin/env python3
"""A slow seqtool: a test model, made by the rules (docs/COMPLETIONS.md) and not by the program.

    slow_seqtool.py renumber | complete [--as added|streams|acts] | why PID INDEX [--effects]    [FILE]

It writes what the program writes, but for what differs on purpose:

- The acts of `complete --as acts` are others. There are more of them than the program writes, so `long` comes earlier.
- A fault of the reader is only `fault line N`, and may not be seen if it is in the acts or a limit. There are no other
  commands.
"""

import re
import signal
import sys
from bisect import bisect_left, bisect_right
from collections import defaultdict
from dataclasses import dataclass, replace
from itertools import islice, product, takewhile

import slow_seqaudit as model
import slow_why
from slow_seqaudit import Event, NotABundle, Unfit, show

MOST_PROCESSES = 1_000_000
MOST_ACTS = 100_000_000


# Streams whose events may be unreported

@dataclass(eq=False)
class Item:
    event: Event
    told: bool


class Reason(Exception):
    """Why no run without a reset has the streams, with whatever other processes."""

    def __init__(self, word, place, other=None):
        super().__init__(word)
        self.word, self.place, self.other = word, place, other


class Long(Exception):
    """There are more processes or acts than the reader of `seqtool check` takes."""


class NoEvent(Exception):
    """There is no event at this place."""


def renumbered(streams):
    counts = {0} | {count for events in streams.values() for event in events
                    for count in (event.prev, event.this)}
    rank = {count: number for number, count in enumerate(sorted(counts))}
    return {pid: [replace(event, prev=rank[event.prev], this=rank[event.this]) for event in events]
            for pid, events in streams.items()}


def is_stamp(event):
    return event.kind != "receive"


# The state that a process's events leave to its next one: the greatest count (its clock), and the prev of a stamp that goes on.

START = (0, 0)


def after(left, event):
    return max(left[0], event.this), event.prev if is_stamp(event) else event.this


def lefts(events):
    """Each event with what those before it leave."""
    left = START
    for event in events:
        yield left, event
        left = after(left, event)


# The reasons besides those of pairing

def late(streams):
    for pid, events in streams.items():
        for i, (left, event) in enumerate(lefts(events)):
            if is_stamp(event) and event.this <= left[0]:
                raise Reason("late", (pid, i), (pid, max(j for j in range(i) if events[j].this >= event.this)))


def unfounded(streams, source):
    """At a stamp with prev 0 of a process that had a count before; at its receive, if only that tells of it."""
    lowest = {}
    for _, event in model.places(streams):
        if event.prev > 0:
            lowest[event.sender] = min(event.this, lowest.get(event.sender, event.this))
    for (pid, i), event in model.places(streams):
        if event.prev == 0 and (is_stamp(event) or source[pid, i] is None):
            received = is_stamp(event) and not all(map(is_stamp, streams[pid][:i]))
            if received or lowest.get(event.sender, event.this) < event.this:
                raise Reason("unfounded", (pid, i))


# Hidden sends and their places

def hidden_sends(streams, source):
    """For each process the sends that only their receives tell of, by rising count."""
    found = {pid: [] for pid in streams}
    for (pid, i), sent in source.items():
        if sent is None:
            event = streams[pid][i]
            found[event.sender].append(replace(event, kind="send"))
    return {pid: sorted(sends, key=lambda send: send.this) for pid, sends in found.items()}


class Stretch:
    """The receives between two reported stamps of a process, each of which may be missing, and the hidden sends whose
    counts lie between theirs. A send at gap K is after K of the receives. A stamp costs nothing, that is, it isn't a
    need, if what is before it leaves its prev, or if its prev isn't below the clock."""

    def __init__(self, before, receives, sends, stamp):
        self.before, self.sends, self.stamp, self.end = before, sends, stamp, len(receives)
        # The clock at each gap by what is reported, and the gaps after receives of a count, and of that and a label.
        self.clocks, self.behind = [before.this if before else 0], defaultdict(list)
        for gap, receive in enumerate(receives, 1):
            self.clocks.append(max(self.clocks[-1], receive.this))
            self.behind[receive.this].append(gap)
            self.behind[receive.this, receive.label].append(gap)

    def last_start(self, count):
        """The last gap at which a trace can begin at this count: the clock isn't above it."""
        return bisect_right(self.clocks, count) - 1

    def next_behind(self, receive, gap, limit):
        """The next gap after a receive of this count, or count and label, if it is within the limit."""
        gaps = self.behind[receive]
        at = bisect_right(gaps, gap)
        return gaps[at] if at < len(gaps) and gaps[at] <= limit else None

    def limits(self):
        """For each send the last gap at which what comes next can still cost nothing, if it can at all."""
        found, following, limit = [], self.stamp, self.end
        for send in reversed(self.sends):
            if following and following.prev != send.prev:
                limit = max(self.limits_before(send, following, limit), default=limit)
            limit = min(limit, bisect_left(self.clocks, send.this) - 1)
            found.append(limit)
            following = send
        return found[::-1]

    def limits_before(self, send, following, limit):
        """Last gaps of a send, if what follows it has another prev: right before a receive of that, or where that can
        begin a trace. The stamp at the end has only one place."""
        moves = following is not self.stamp
        earlier = [gap for gap in self.behind[following.prev] if gap <= limit]
        if earlier and (moves or earlier[-1] == limit):
            yield earlier[-1] - 1
        start = min(limit, self.last_start(following.prev))
        if following.prev >= max(self.clocks[0], send.this) and (moves or start == limit):
            yield start

    def gaps(self):
        """The gap of each send."""
        found, gap, clock = [], 0, self.clocks[0]
        left = (self.before.prev, self.before.label) if self.before else (0, None)
        for send, limit in zip(self.sends, self.limits()):
            gap = self.gap_of(send, left, clock, gap, limit)
            found.append(gap)
            left, clock = (send.prev, send.label), max(clock, self.clocks[gap], send.this)
        if self.ends_in_own_trace():
            count = len(list(takewhile(lambda send: send.prev == self.stamp.prev, reversed(self.sends))))
            found[len(found) - count:] = [self.end] * count
        return found

    def gap_of(self, send, left, clock, gap, limit):
        """Where a send goes from the gap of the one before it."""
        if left == (send.prev, send.label):
            return gap
        behind = self.next_behind((send.prev, send.label), gap, limit)
        if behind is None and send.prev not in (left[0], clock):
            behind = self.next_behind(send.prev, gap, limit)
            if behind is None and send.prev > clock:
                # It begins a trace later, after all that may be before it.
                return max(gap, min(limit, self.last_start(send.prev)))
        return gap if behind is None else behind

    def ends_in_own_trace(self):
        """Whether the last sends begin the trace of the stamp at the end, so that they go right before it."""
        if not self.stamp or not self.sends or self.sends[-1].prev != self.stamp.prev:
            return False
        earlier = [send.this for send in self.sends if send.prev != self.stamp.prev]
        high = max([self.clocks[self.end], *earlier[-1:]])
        return self.behind[self.stamp.prev][-1:] != [self.end] and self.stamp.prev >= high


def with_hidden(events, sends):
    """A process's events and its hidden sends, stretch after stretch."""
    items, begin, before = [], 0, None
    for end in [i for i, event in enumerate(events) if is_stamp(event)] + [len(events)]:
        stamp = events[end] if end < len(events) else None
        own = [send for send in sends
               if (not before or send.this > before.this) and (not stamp or send.this < stamp.this)]
        gaps = Stretch(before, events[begin:end], own, stamp).gaps()
        for gap, receive in enumerate([None, *events[begin:end]]):
            items += [Item(receive, True)] if receive else []
            items += [Item(send, False) for send, place in zip(own, gaps) if place == gap]
        items += [Item(stamp, True)] if stamp else []
        begin, before = end + 1, stamp
    return items


# Receives that were lost, and messages that nobody reported

def unreceived_sends(streams, source):
    """The reported sends that no reported receive took, by receiver and count, and then by rising sender."""
    taken, found = set(source.values()), defaultdict(list)
    for place, event in model.places(streams):
        if event.kind == "send" and place not in taken:
            found[event.to, event.this].append(event)
    return found


def lost_receives(pid, asking, unreceived):
    """Which stamps follow a reported send that no reported receive took. Those that ask come with how their prev lies
    to the clock: needs take first, and for each sort those whose label is that of the send."""
    found = {}
    for sort, same_label in product((-1, 1), (True, False)):
        for item, side in asking:
            sends = unreceived[pid, item.event.prev]
            send = next((send for send in sends if not same_label or send.label == item.event.label), None)
            if side == sort and item not in found and send:
                found[item] = replace(send, kind="receive")
                sends.remove(send)
    return found


def with_receives(pid, items, unreceived):
    """A process's items with a receive right before each need, and before what would begin a trace though a message of
    its prev was sent to the process. A receive without a sender needs one."""
    asking = [(item, (event.prev > left[0]) - (event.prev < left[0]))
              for item, (left, event) in zip(items, lefts(item.event for item in items))
              if is_stamp(event) and event.prev != left[1]]
    lost, needs = lost_receives(pid, asking, unreceived), {item for item, side in asking if side < 0}
    found = []
    for item in items:
        if item in lost:
            found.append(Item(lost[item], False))
        elif item in needs:
            found.append(Item(Event(item.event.label, "receive", 0, item.event.prev, None, pid, 0), False))
        found.append(item)
    return found


def unlisted_pids(listed):
    """The pids that aren't listed: on the node of the least listed one from the last number down, then on the next."""
    least = min(listed)[0]
    every = (((least + k) % 65_536, number) for k in range(65_536) for number in reversed(range(65_536)))
    return (pid for pid in every if pid not in listed)


def with_senders(whole):
    """The completion with a sender for each receive that needs one: of each count the processes that stamp it nowhere,
    by rising pid, and then as few others as are enough, of which each sends a count once."""
    needs, stamping, sent = defaultdict(list), defaultdict(set), defaultdict(list)
    for pid, items in whole.items():
        for item in items:
            if is_stamp(item.event):
                stamping[item.event.this].add(pid)
            elif item.event.sender is None:
                needs[item.event.this].append(item)
    short = max((len(some) + len(stamping[count]) - len(whole) for count, some in needs.items()), default=0)
    unlisted = list(islice(unlisted_pids(whole), max(0, short))) if short > 0 else []
    for count, some in sorted(needs.items()):
        senders = [pid for pid in whole if pid not in stamping[count]] + unlisted
        for need, sender in zip(some, senders):
            sent[sender].append(need)
    return {pid: with_invented(pid, whole.get(pid, []), sent[pid]) for pid in sorted([*whole, *unlisted])}


def with_invented(pid, items, receives):
    """A sender's items with the sends of these receives, which come by rising count: each before the first event that
    reaches its count. It continues with what is left, or begins the next event's trace. The receives get its serial."""
    found, left, waiting = [], START, receives[:]
    for item in [*items, None]:
        while waiting and (item is None or waiting[0].event.this <= item.event.this):
            receive = waiting.pop(0)
            begins = item and is_stamp(item.event) and left[0] <= item.event.prev < receive.event.this
            prev = item.event.prev if begins else left[1]
            receive.event = replace(receive.event, sender=pid, prev=prev)
            found.append(Item(replace(receive.event, kind="send"), False))
            left = after(left, found[-1].event)
        if item:
            found.append(item)
            left = after(left, item.event)
    return found


def completed(streams):
    """All events of the completion, also those of the processes that the streams don't list."""
    source = model.pair(streams)
    late(streams)
    unfounded(streams, source)
    hidden, unreceived = hidden_sends(streams, source), unreceived_sends(streams, source)
    return with_senders({pid: with_receives(pid, with_hidden(events, hidden[pid]), unreceived)
                         for pid, events in streams.items()})


class Builder(model.Builder):
    """The construction with marks: a flag is on exactly if its event was reported."""

    def __init__(self, whole, source):
        super().__init__({pid: [item.event for item in items] for pid, items in whole.items()}, source)
        self.told = {(pid, k): item.told for pid, items in whole.items() for k, item in enumerate(items)}
        self.receive_of = {sent: place for place, sent in source.items()}

    def pad(self, pid, label, count):
        if len(self.acts) + count > MOST_ACTS:
            raise Long
        super().pad(pid, label, count)

    def item(self, item):
        event, (_, place) = model.event_of(self.streams, item), item
        self.done[place[0]] += 1
        report = self.receive(event) if event.kind == "receive" else self.stamp(item, event)
        if report != (event if self.told[place] else None):
            raise model.Stop

    def stamp(self, item, event):
        place, one = item[1], self.world.of[event.sender]
        if event.prev != one.last:
            self.pad(event.sender, event.label, event.prev - one.clock)
            self.act("clear", show(event.sender))
            self.act("set", show(event.sender), "label", str(event.label))
        self.pad(event.sender, event.label, event.this - 1 - one.clock)
        told = self.told[place]
        if event.kind == "print":
            self.dress(event.sender, event.label, (False, False, told))
            return self.act("print", show(event.sender), str(event.value))
        got = self.receive_of.get(place)
        self.dress(event.sender, event.label, (told, got is not None and self.told[got], False))
        return self.act("send", show(event.sender), show(event.to), str(event.value))


def acts(whole):
    events = {pid: [item.event for item in items] for pid, items in whole.items()}
    source = model.pair(events)
    builder = Builder(whole, source)
    for item in model.order(events, source):
        builder.item(item)
    if len(builder.acts) > MOST_ACTS:
        raise Long
    return builder.acts


# The output

# A pid as a command's word, with its angle brackets or without.
PID = re.compile(r"<?(\d+)\.(\d+)\.0>?")


def pid_of(word):
    found = PID.fullmatch(word)
    return int(found[1]), int(found[2])


def written(words, streams):
    """The lines of a command."""
    match words:
        case ["renumber"]:
            return list(model.write(renumbered(streams), None))
        case ["why", pid, index, *effects]:
            where = pid_of(pid), int(index)
            lines = slow_why.why(streams, where, model.TOP, False, bool(effects))
            if lines is None:
                raise NoEvent(f"no event {show(where[0])} {where[1]}")
            return lines
    whole = completed(streams)
    if words[1:] not in ([], ["--as", "added"]) and len(whole) > MOST_PROCESSES:
        raise Long
    match words[1:]:
        case ["--as", "streams"]:
            return list(model.write({pid: [item.event for item in items] for pid, items in whole.items()}, None))
        case ["--as", "acts"]:
            return list(model.write({pid: streams.get(pid, []) for pid in whole}, acts(whole)))
    added = [f"added {show(pid)} {k} {item.event}" for pid, items in whole.items()
             for k, item in enumerate(items) if not item.told]
    return [f"added {len(added)}", *(f"unlisted {show(pid)}" for pid in whole if pid not in streams), *added]


def report(streams, unfit):
    named = [unfit.place] + ([unfit.other] if unfit.other else [])
    place = f"{show(unfit.place[0])} {unfit.place[1]}"
    yield " ".join([f"never {place} {unfit.word}", *(f"{show(pid)} {i}" for pid, i in named[1:])])
    for pid, i in named:
        yield f"event {show(pid)} {i} {streams[pid][i]}"


def answer(words, text):
    """The lines and the status."""
    streams = {}
    try:
        streams, _ = model.read(text)
        return written(words, streams), 0
    except NotABundle as fault:
        return [f"fault line {fault}"], 2
    except Long:
        return ["long"], 5
    except NoEvent as none:
        return [str(none)], 1
    except (Unfit, Reason) as unfit:
        return list(report(streams, unfit)), 1


def is_place(pid, index):
    return PID.fullmatch(pid) and index.isdecimal()


def asked(words):
    """The command and the file, if the words are understood."""
    match words:
        case ["renumber" | "complete" as command, *rest] if len(rest) < 2:
            return [command], *rest
        case ["why", pid, index, "--effects", *rest] if is_place(pid, index) and len(rest) < 2:
            return ["why", pid, index, "--effects"], *rest
        case ["why", pid, index, *rest] if is_place(pid, index) and len(rest) < 2:
            return ["why", pid, index], *rest
        case ["complete", "--as", "added" | "streams" | "acts" as form, *rest] if len(rest) < 2:
            return ["complete", "--as", form], *rest
        case _:
            return None


def text_of(file):
    """The content of a file, or of standard input if none is named."""
    with open(file[0] if file else 0, encoding="utf-8", errors="surrogateescape", newline="\n") as given:
        return given.read()


def main():
    # The reader of the output may end first, as `head` does.
    signal.signal(signal.SIGPIPE, signal.SIG_DFL)
    words = asked(sys.argv[1:])
    if words is None:
        print("usage: slow_seqtool.py renumber | complete [--as added|streams|acts] | why PID INDEX [--effects]    [FILE]")
        sys.exit(3)
    command, *file = words
    try:
        text = text_of(file)
    except OSError:
        print("fault device")
        sys.exit(4)
    lines, status = answer(command, text)
    sys.stdout.writelines(line + "\n" for line in lines)
    sys.exit(status)


if __name__ == "__main__":
    main()
