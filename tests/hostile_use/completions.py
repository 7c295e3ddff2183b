"""Large traces of which much wasn't reported, as `seqtool complete` takes them: its memory, and its processor time beside
that of `audit` of a full trace."""

import os
import sys
import tempfile
from pathlib import Path

sys.path.insert(0, str(Path(__file__).resolve().parents[2] / "bench/completions"))

from one_run import run_once  # noqa: E402
from traces import SORTS, ring, written  # noqa: E402

from .program import Check  # noqa: E402

EVENTS = 100_000
SECONDS = 60

# The least processor time of some runs counts, in which both programs take turns, since others use the processor and its
# caches too. If that breaks the bound, more runs decide.
ROUNDS = 3
MORE_ROUNDS = 12

# bench/completions/times.py has a bound of 1.5 for a million events. Here a run takes a tenth of a second and begins with
# what no event takes, and beside other work what takes more memory is slowed down more. A program that takes three times
# as long is refused all the same, and one that stalls, or whose time grows as the square, takes seconds.
MOST_RATIO = 2
MORE_SECONDS = 0.1
MOST_BYTES = 300  # An event.
MORE_BYTES = 8 << 20


class Race:
    """Runs of `audit` on one trace and of `complete` on another, in turn: the least time of each, the greatest peak of the
    second, and the first line that it wrote."""

    def __init__(self, audit, complete, folder):
        self.entrants = (audit, complete)
        self.output = os.path.join(folder, "written")
        self.least = [float("inf"), float("inf")]
        self.peak = 0
        self.said = ""

    def run(self, rounds):
        for _ in range(rounds):
            for place, (words, source) in enumerate(self.entrants):
                _, _, seconds, peak = run_once(words, source, self.output, SECONDS)
                self.least[place] = min(self.least[place], seconds)
            self.peak = max(self.peak, peak)
        with open(self.output, "rb") as file:
            self.said = file.readline(100).decode(errors="replace").strip()

    def most(self):
        """The most seconds that `complete` may take."""
        return MOST_RATIO * self.least[0] + MORE_SECONDS

    def is_fast(self):
        return self.least[1] <= self.most()


def completed(program, tool, sort):
    """One sort of trace within its bounds."""
    title, make, word, processes = SORTS[sort]
    with tempfile.TemporaryDirectory() as folder:
        full, given = os.path.join(folder, "full"), os.path.join(folder, "given")
        written(ring(max(processes, 2), EVENTS), full)
        events = written(make(EVENTS), given)
        race = Race(([program.path, "audit"], full), ([tool, "complete"], given), folder)
        race.run(ROUNDS)
        if not race.is_fast():
            race.run(MORE_ROUNDS)
    room = MOST_BYTES * events + MORE_BYTES
    note = (f"{race.said[:40]}: {race.least[1]:.2f} s, audit of a full trace {race.least[0]:.2f} s, "
            f"peak {race.peak >> 20} MB")
    is_right = race.said.startswith(f"{word} ") and race.is_fast() and race.peak <= room
    bounds = f"more than {race.most():.2f} s or {room >> 20} MB, or not {word}: {note}"
    yield Check(f"completions: {title}", None if is_right else bounds, note)
