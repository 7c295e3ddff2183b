"""The parts of the families of growing texts: a bundle's text."""

import re
import sys
from collections import namedtuple
from pathlib import Path

sys.path.insert(0, str(Path(__file__).resolve().parents[2] / "bench/completions"))

from traces import FIRST, SORTS, Run, event, pid, ring  # noqa: E402, F401

EVENTS = 40_000  # In a text whose number of events is fixed.
LABEL = 17

# A dimension: what makes the text of a size, and the greatest size of a short run. No size is above the most, if there is
# one; then the text is also told how many events it has.
Family = namedtuple("Family", "name make great most", defaults=(None,))


def bundle(streams, acts=()):
    """The text of these streams, of the processes from the first on, and of the acts."""
    yield "seqtrace 2\n" if FIRST + len(streams) > 1 << 16 else "seqtrace 1\n"
    for place, events in enumerate(streams):
        yield f"process {pid(place)}\n"
        yield from events
    if acts:
        yield "acts\n"
        yield from acts


def on_nodes(lines):
    """The bundle with each process on a node of its own."""
    return (re.sub(r"<0\.(\d+)\.0>", r"<\1.0.0>", line).replace("seqtrace 1", "seqtrace 2") for line in lines)


def is_event(line):
    return line.startswith("{")
