#!/usr/bin/env python3
"""Counts what `gemshowal audit` says of traces that were damaged: tests/damaged.py GEMSHOWAL SEED NAME..

Of each trace, as `erlang/test/truth_rows` collects them, copies are made with one event each that was changed, lost, doubled or
exchanged with the next one. A row is a kind of damage, with what `audit` says of the copies of those traces that fit as they
were. Of what fits it may say that something else is missing, or that more tokens were put back or handed over, than of the
whole trace; of the rest it says the same."""
import json
import random
import re
import subprocess
import sys
import tempfile
from collections import Counter
from concurrent.futures import ThreadPoolExecutor
from pathlib import Path

EVENT = re.compile(r"\{seq_trace,\d+,\{('?\w+'?),\{(-?\d+),(-?\d+)\}")
WAYS = ("count changed", "prev changed", "send lost", "receive lost", "print lost", "doubled", "exchanged")
HEAD = ("damage", "traces", "doesn't fit", "fits if", "fits, with more handed over", "with more put back", "with else missing",
        "the same said")
SIZE = re.compile(r"^fits: [\d,]+ events? of \d+ processe?s?")
CHANGES = (-1, 1, 2, 16)


def kind(line):
    return EVENT.match(line)[1].strip("'")


def with_serial(line, prev, this):
    start, end = EVENT.match(line).span(2)[0], EVENT.match(line).span(3)[1]
    return f"{line[:start]}{prev},{this}{line[end:]}"


def can_damage(way, lines, i):
    if not EVENT.match(lines[i]):
        return False
    if way.endswith("lost"):
        return kind(lines[i]) == way.split()[0]
    if way == "exchanged":
        # Two receives in the other order are mostly a trace as good as the whole one.
        return i + 1 < len(lines) and bool(EVENT.match(lines[i + 1])) and {kind(lines[i]), kind(lines[i + 1])} != {"receive"}
    return True


def damaged(rng, way, lines):
    """The lines with one event damaged, or None if no event can be."""
    places = [i for i in range(len(lines)) if can_damage(way, lines, i)]
    if not places:
        return None
    i = rng.choice(places)
    prev, this = (int(it) for it in EVENT.match(lines[i]).groups()[1:])
    by = rng.choice([it for it in CHANGES if min(prev, this) + it >= 0])
    one = {"count changed": [with_serial(lines[i], prev, this + by)], "prev changed": [with_serial(lines[i], prev + by, this)],
           "doubled": [lines[i]] * 2, "exchanged": lines[i:i + 2][::-1]}.get(way, [])
    return lines[:i] + one + lines[i + len(lines[i:i + 2] if way == "exchanged" else [i]):]


class Auditor:
    def __init__(self, gemshowal, seed):
        self.gemshowal, self.seed = gemshowal, seed

    def told(self, folder, name, lines):
        file = Path(folder, "it.seqtrace")
        file.write_text("\n".join(lines) + "\n")
        file.with_suffix(".terms").write_bytes(Path(name + ".terms").read_bytes())
        told = json.loads(subprocess.run([self.gemshowal, "audit", "--json", file], capture_output=True, check=False).stdout)
        said = {"never": "doesn't fit", "unexplained": "fits if"}.get(told["result"], "fits")
        return said, len(told.get("handed_over", [])), len(told.get("put_backs", [])), SIZE.sub("", told["headline"])

    def count(self, name):
        """What is said of the damaged copies of a trace, by damage."""
        counted, lines = Counter(), Path(name + ".seqtrace").read_text().splitlines()
        kept = "/".join(Path(name).parts[-2:])
        with tempfile.TemporaryDirectory() as folder:
            whole = self.told(folder, name, lines)
            if whole[0] != "fits":
                return counted
            for way in WAYS:
                changed = damaged(random.Random(f"{self.seed} {way} {kept}"), way, lines)
                if changed is None:
                    continue
                told = self.told(folder, name, changed)
                is_more = told[1] > whole[1], told[2] > whole[2], told[3] != whole[3], True
                fits = next(more for more, is_so in zip(HEAD[4:], is_more) if is_so)
                counted.update([(way, "traces"), (way, fits if told[0] == "fits" else told[0])])
        return counted


def main():
    gemshowal, seed, names = sys.argv[1], sys.argv[2], sys.argv[3:]
    with ThreadPoolExecutor() as threads:
        counted = sum(threads.map(Auditor(gemshowal, seed).count, names), Counter())
    print("|", " | ".join(HEAD), "|")
    for way in WAYS:
        print("|", " | ".join([way, *(str(counted[way, it]) for it in HEAD[1:])]), "|")
    print("|", " | ".join(["all", *(str(sum(counted[way, it] for way in WAYS)) for it in HEAD[1:])]), "|")


if __name__ == "__main__":
    main()
