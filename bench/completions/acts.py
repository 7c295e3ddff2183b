#!/usr/bin/env python3
"""How many acts `seqtool complete --as acts` writes for an event, and how fast: bench/completions/acts.py SEQTOOL
[EVENTS]. Each sort of trace has a bound on its acts, and what is written goes through `seqtool check`.

The last line counts the sorts; the exit status is 1 if one has too many acts or isn't accepted."""

import sys
import tempfile
from pathlib import Path

sys.dont_write_bytecode = True
sys.path.insert(0, str(Path(__file__).resolve().parent.parent))

import traces  # noqa: E402
from one_run import run_once  # noqa: E402
from traces import Run, written  # noqa: E402


def full(events):
    """Everything is reported."""
    return Run(64).go(events)


def without_prints(events):
    """The flag for prints is off."""
    return Run(64, ("send", "'receive'")).go(events * 8 // 7)


def sends(events):
    """Sends alone are reported."""
    return Run(64, ("send",)).go(events * 9 // 5)


def needs(events):
    """One process prints, and the causes of its prints aren't reported."""
    return traces.needs(1, events)


def late(events):
    """The tracer came on when 200 processes had a clock of 15,000."""
    return Run(200, clock=15_000).go(events)


# Each sort with the most acts for an event, besides these.
SORTS = ((full, 1.1, 0), (without_prints, 1.2, 0), (sends, 2, 0), (needs, 3.01, 0), (late, 1.1, 17_000))


def acts_in(path):
    with open(path, encoding="ascii") as text:
        lines = text.read().split("\nacts\n")
    return lines[1].count("\n") if len(lines) == 2 else 0


def main(seqtool, events="100000"):
    failed = 0
    print("| Trace | Events | Acts | Acts an event | Seconds | Within the bound, and checked |")
    print("|---|---|---|---|---|---|")
    with tempfile.TemporaryDirectory() as room:
        for sort, each, besides in SORTS:
            count = written(sort(int(events)), f"{room}/trace")
            status, _, seconds, _ = run_once([seqtool, "complete", "--as", "acts"], f"{room}/trace", f"{room}/acts")
            acts = acts_in(f"{room}/acts")
            checked, *_ = run_once([seqtool, "check"], f"{room}/acts", f"{room}/verdict")
            is_right = status == checked == 0 and count < acts <= each * count + besides
            failed += not is_right
            print(f"| {sort.__name__} | {count:,} | {acts:,} | {acts / count:.2f} | {seconds:.2f} s | "
                  f"{'yes' if is_right else 'no'} |", flush=True)
    print(f"{len(SORTS) - failed} passed, {failed} failed")
    return 1 if failed else 0


if __name__ == "__main__":
    sys.exit(main(*sys.argv[1:]))
