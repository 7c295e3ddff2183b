#!/usr/bin/env python3
"""Times `seqtool complete` on a million events that a trace of one sort has, and says how many bytes an event it takes:
bench/completions/times.py SEQAUDIT SEQTOOL [EVENTS [ROUNDS]].

Each row is compared with `seqaudit audit` of a full trace with as many events and processes: the two programs run in
turn, and the columns have the medians of processor time, their ratio and the peak of memory. The exit status is 1 if a
row is above a bound or says something else than it should."""

import statistics
import sys
import tempfile
import time
from pathlib import Path

sys.dont_write_bytecode = True
sys.path.insert(0, str(Path(__file__).resolve().parent.parent))

from one_run import run_once  # noqa: E402
from traces import SORTS, ring, written  # noqa: E402

MOST_RATIO = 1.5
MOST_BYTES = 300  # An event.


def first_line(path):
    with open(path, "rb") as text:
        return text.readline(80).decode(errors="replace").strip()


def compare(programs, sources, room, rounds):
    """The medians of both, the peak of the second, and what it writes first."""
    seconds, most = [[], []], 0
    for _ in range(rounds):
        for place, (words, source) in enumerate(zip(programs, sources)):
            status, _, taken, peak = run_once(words, source, f"{room}/{place}.written")
            seconds[place].append(taken)
            most = max(most, peak) if place else most
            if status > 1:
                sys.exit(f"{' '.join(words)} < {source}: status {status}")
    return [statistics.median(it) for it in seconds], most, first_line(f"{room}/1.written")


def main(seqaudit, seqtool, events="1000000", rounds="3"):
    count, begin, failed = int(events), time.monotonic(), 0
    print("| Trace | events | complete | audit of a full trace | ratio | bytes an event | it writes |")
    print("|---|---|---|---|---|---|---|")
    with tempfile.TemporaryDirectory() as room:
        for title, sort, word, processes in SORTS:
            real = written(sort(count), f"{room}/sort")
            written(ring(max(processes, 2), count), f"{room}/full")
            programs = [[seqaudit, "audit"], [seqtool, "complete"]]
            (of_audit, of_complete), peak, said = compare(programs, [f"{room}/full", f"{room}/sort"], room, int(rounds))
            ratio = of_complete / of_audit
            failed += ratio > MOST_RATIO or peak > MOST_BYTES * real or not said.startswith(f"{word} ")
            print(f"| {title} | {real:,} | {of_complete:.2f} s | {of_audit:.2f} s | {ratio:.2f} | "
                  f"{peak // real} | `{said}` |", flush=True)
    print(f"{failed} above a bound or wrong, {time.monotonic() - begin:.0f} seconds in all", file=sys.stderr)
    return 1 if failed else 0


if __name__ == "__main__":
    sys.exit(main(*sys.argv[1:]))
