#!/usr/bin/env python3
"""Times `gemshowal why` and `audit` on traces of a standard node, and says how many bytes an event they take:
bench/why_times.py SEQAUDIT GEMSHOWAL [EVENTS [ROUNDS]].

Each is compared with itself on a quarter of the events, and with `seqaudit audit` on a full trace of as many events. The
columns have medians of processor time, and the greatest peak of memory. The exit status is 1 if a row is above a bound."""

import math
import statistics
import sys
import tempfile
from pathlib import Path

sys.dont_write_bytecode = True
sys.path.insert(1, str(Path(__file__).resolve().parent / "completions"))

from one_run import run_once  # noqa: E402
from traces import FIRST, NUMBERS, event, pid, ring, written  # noqa: E402

MOST_EXPONENT, MOST_RATIO, MOST_BYTES = 1.15, 2, 300
SERIAL = 2**60


def signed(count):
    return (count + SERIAL // 2) % SERIAL - SERIAL // 2


def requests(count):
    """Each client asks one server once, under one label: half of the events are of serial {0,1}."""
    server, clients = [], []
    for client in range(1, count // 4 + 1):
        asked, replied = ((0, 1), client, 0, 2 * client), ((1, client + 1), 0, client, 2 * client + 1)
        server += [event("'receive'", *asked), event("send", *replied)]
        clients.append([event("send", *asked), event("'receive'", *replied)])
    return [server, *clients]


def spawns(count):
    """One process spawns all others under its token, so its counters wrap."""
    parent, children, clock, last = [], [], 0, 0
    for child in range(1, count // 4 + 1):
        clock += 1
        asked = ((signed(last), signed(clock)), 0, child, 2 * child)
        replied = ((signed(clock), signed(clock + 1)), child, 0, 2 * child + 1)
        parent += [event("send", *asked), event("answer", *replied)]
        children.append([event("'receive'", *asked), event("send", *replied)])
        clock = last = (16 * (clock + 1) + 15) % 2**64
    return [parent, *children]


SORTS = (("half of the events of one serial", requests, False), ("spawns", spawns, True))


def trace(make, is_wrapped, count, path):
    """Writes a trace of at most so many events."""
    events = written(make(count), path)
    version = 3 if is_wrapped else 2 if count // 4 + FIRST >= NUMBERS else 1
    text = Path(path).read_text(encoding="ascii").split("\n", 1)[1]
    Path(path).write_text(f"seqtrace {version}\n{text}", encoding="ascii")
    return events


def median(words, source, room, rounds):
    """The median of the processor time, and the greatest peak."""
    runs = [run_once(words, source, f"{room}/out") for _ in range(rounds)]
    if any(run[0] > 1 for run in runs):
        sys.exit(f"{' '.join(words)}: {Path(room, 'out').read_text()[:500]}")
    return statistics.median(run[2] for run in runs), max(run[3] for run in runs)


def main(seqaudit, gemshowal, events="1000000", rounds="3"):
    count, rounds, failed = int(events), int(rounds), 0
    print("| Trace | Command | events | seconds | exponent | of `seqaudit audit` | bytes an event |")
    print("|---|---|---|---|---|---|---|")
    with tempfile.TemporaryDirectory() as room:
        written(ring(1024, count), f"{room}/full")
        full, _ = median([seqaudit, "audit"], f"{room}/full", room, rounds)
        for title, make, is_wrapped in SORTS:
            few = trace(make, is_wrapped, count // 4, f"{room}/few.seqtrace")
            many = trace(make, is_wrapped, count, f"{room}/many.seqtrace")
            for command in (["why", "-", f"{pid(1)} 1"], ["audit", "-"]):
                less, _ = median([gemshowal, *command], f"{room}/few.seqtrace", room, rounds)
                seconds, peak = median([gemshowal, *command], f"{room}/many.seqtrace", room, rounds)
                power = math.log(seconds / less) / math.log(many / few)
                failed += power > MOST_EXPONENT or seconds > MOST_RATIO * full or peak > MOST_BYTES * many
                print(f"| {title} | `{command[0]}` | {many:,} | {seconds:.2f} | {power:.2f} | {seconds / full:.2f} | "
                      f"{peak // many} |", flush=True)
    return bool(failed)


if __name__ == "__main__":
    sys.exit(main(*sys.argv[1:]))
