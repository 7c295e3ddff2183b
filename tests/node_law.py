#!/usr/bin/env python3
"""Holds the definitions of what gives a stamp to a search: tests/node_law.py [STREAMS [SEED]]

The definitions are those of `crates/node_machine/specs` (Readings, Given), in Python. The search tries all acts of one
process between its events. Both count with small counters, so that they wrap in a few steps: 5 bits, of which a serial
shows 3, and an answer leaves 4 T + 3. They must agree on which streams have a run, and no run may put back fewer tokens
than the readings need. That streams have a run if each stamp is given isn't proved: here it is tried."""
import heapq
import random
import sys
from collections import namedtuple

COUNTER, SERIAL = 2**5, 2**3
MOST_STATES = 20_000

Event = namedtuple("Event", "kind prev this")  # kind: stamp, receive or answer


def answer_count(this):
    return 4 * this + 3


# THE DEFINITIONS


def clock_by(event, clock):
    return answer_count(event.this) if event.kind == "answer" else max(clock, event.this)


def last_by(event):
    return {"stamp": event.prev, "receive": event.this, "answer": answer_count(event.this) % SERIAL}[event.kind]


def last_behind(events, last=0):
    return last_by(events[-1]) if events else last


def clock_behind(clock, events):
    for event in events:
        clock = clock_by(event, clock)
    return clock


def is_next(clock, last, event):
    return (event.prev, event.this) == (last, (clock + 1) % SERIAL)


def readings(events):
    """The clocks after the events, each with the least number of tokens put back that leads to it."""
    found = {0: 0}
    for i, event in enumerate(events):
        grown = {}
        for clock, number in found.items():
            ways = [(clock_by(event, clock), number)]
            if event.kind == "stamp":
                ways = [(event.this or SERIAL, number + 1)]
                if is_next(clock, last_behind(events[:i]), event):
                    ways.append(((clock + 1) % COUNTER, number))
            for way, n in ways:
                grown[way] = min(n, grown.get(way, n))
        found = grown
    return found


def tokens(events):
    held = {(0, 0)}
    for event in events:
        held |= {(last_by(event), 0)} if event.kind == "answer" else {tuple(event[1:]), (event.prev, 0)}
        held |= {(event.this, 0)} if event.kind == "receive" else set()
    return held


def is_given(events, stamp):
    if any(is_next(clock, last_behind(events), stamp) for clock in readings(events)):
        return True
    for n in range(len(events), -1, -1):
        if n < len(events) and events[n].kind != "receive":
            return False
        front, back = events[:n], events[n:]
        if any(is_next(clock_behind(t, back), last_behind(back, v), stamp) for v, t in tokens(front)):
            return True
    return False


def each_is_given(events):
    return all(is_given(events[:i], e) for i, e in enumerate(events) if e.kind == "stamp")


# THE SEARCH


def steps(state, event):
    """The next acts that a process may do, with the tokens that it puts back for each."""
    done, clock, last, token, held = state
    if event.kind != "answer":  # between a request and its answer a process does nothing
        yield 0, (done, clock, last, None, held)
        if token is None:
            yield 0, (done, clock, last, (last, 0), held | {(last, 0)})
        for v, t in held:
            yield 1, (done, t, v, (v, t), held)
    if event.kind == "answer":
        count = answer_count(event.this)
        yield 0, (done + 1, count, count % SERIAL, token, held)
    elif event.kind == "receive":
        taken = (event.prev, event.this)
        yield 0, (done + 1, max(clock, event.this), event.this, taken, held | {taken})
    elif token and is_next(clock, last, event):
        stamped = (event.prev, event.this)
        yield 0, (done + 1, (clock + 1) % COUNTER, last, stamped, held | {stamped})


def least_put_backs(events):
    """The least number in a run that shows the events, None if there is no run, 'large' if that isn't known."""
    start = (0, 0, 0, None, frozenset())
    best, waiting, order = {start: 0}, [(0, 0, start)], 0
    while waiting:
        number, _, state = heapq.heappop(waiting)
        if state[0] == len(events):
            return number
        if number > best[state]:
            continue
        if len(best) > MOST_STATES:
            return "large"
        for more, after in steps(state, events[state[0]]):
            if number + more < best.get(after, MOST_STATES):
                best[after] = number + more
                order += 1
                heapq.heappush(waiting, (number + more, order, after))
    return None


# THE STREAMS


def stream(rng):
    """Events of a process that does as a node does, in half of the streams with one count changed."""
    events, clock, last, saved = [], 0, 0, [(0, 0)]
    for _ in range(rng.randint(2, 7)):
        chance = rng.random()
        if chance < 0.15:
            last, clock = rng.choice(saved)
        if chance < 0.35:
            event = Event("receive", rng.randrange(SERIAL), rng.choice([clock % SERIAL, rng.randrange(SERIAL)]))
            saved.append(event[1:])
        elif chance < 0.45 and events and events[-1].kind == "stamp":
            event = Event("answer", rng.randrange(SERIAL), rng.choice([SERIAL - 1, rng.randrange(SERIAL)]))
        else:
            event = Event("stamp", last, (clock + 1) % SERIAL)
            saved.append(event[1:])
        clock = (clock + 1) % COUNTER if event.kind == "stamp" else clock_by(event, clock)
        last = last_by(event)
        events.append(event)
    if rng.random() < 0.5:
        at = rng.randrange(len(events))
        field = rng.choice(["prev", "this"])
        events[at] = events[at]._replace(**{field: rng.randrange(SERIAL)})
    return events


# A put-back that no count shows, and then the clock of the other reading passes its greatest value: only the reading
# with the put-back gives the last stamp.
PASSES_ITS_GREATEST = [Event(*words) for words in (
    ("receive", 7, 7), ("stamp", 7, 0), ("answer", 3, 7), ("stamp", 7, 0), ("stamp", 7, 1), ("receive", 4, 5),
    ("stamp", 5, 2))]


def main():
    number, seed = (int(it) for it in (sys.argv[1:] + ["3000", "1"][len(sys.argv) - 1:])[:2])
    rng = random.Random(seed)
    streams = [PASSES_ITS_GREATEST] + [stream(rng) for _ in range(number)]
    large = runs = 0
    for events in streams:
        least, given = least_put_backs(events), each_is_given(events)
        if least == "large":
            large += 1
            continue
        runs += least is not None
        if given != (least is not None):
            sys.exit(f"{events}: {'each stamp is given, and there is no run' if given else 'not given, in a run'}")
        if given and min(readings(events).values()) > least:
            sys.exit(f"{events}: a run puts back {least}, fewer than the readings need")
    if large * 10 > len(streams) or not 0 < runs < len(streams) - large:
        sys.exit(f"{large} of {len(streams)} streams were too large, and {runs} have a run: that tries too little")
    print(f"{len(streams) - large} streams of a process agree with the search, {runs} of which have a run.")


if __name__ == "__main__":
    main()
