"""The traces of bench/bundles, and what is asked of each."""

from collections import Counter

# The commands, each with the kind of file that it reads.
COMMANDS = {"check": "run", "replay": "run", "audit": "streams", "chart": "streams", "drive": "scripts"}
# The traces, each with the commands that are timed on it.
TRACES = {
    "ordinary": ("8 processes", COMMANDS),
    "two": ("2 processes", COMMANDS),
    "sixty-four": ("64 processes", COMMANDS),
    "thousand": ("1,000 processes", COMMANDS),
    "labels": ("64 processes, 10,000 labels", COMMANDS),
    "nodes": ("256 processes on 256 nodes", COMMANDS),
    "random": ("random acts of 64 processes", ("check", "replay", "drive")),
    # No audit accepts the streams of the others.
    "reported": ("random acts that are all reported", ("audit", "chart")),
    "lanes": ("1,000 lanes", ("chart",)),
}


def words_of(command, source):
    """The command's words: a chart is of the label of the most events."""
    if command != "chart":
        return [command]
    with open(source, encoding="ascii") as lines:
        labels = Counter(line.split(",", 2)[1] for line in lines if line.startswith("{"))
    return [command, "--label", labels.most_common(1)[0][0]]
