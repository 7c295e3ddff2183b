"""Stalls: texts that grow in one dimension at a time, and the processor time that each command takes for them.

The time for a byte, of the text and of what is written, may hardly grow with the dimension: for a text that grows as the
dimension does, the time grows as its power 1.25 at most. And each text of as many bytes, processes and events as
`seqaudit` reads takes less than 20 seconds and 2 GB."""

import math
import os
import tempfile
from collections import namedtuple
from functools import cache
from inspect import signature

from one_run import run_once

from . import model
from .act_families import ACTS, CROWDS_OF_ACTS, looks, resets
from .program import Check
from .stream_families import CROWDS, STREAMS, Nodes
from .texts import LABEL, bundle, is_event, on_nodes

BOUND = 1.25
PARTS = (9, 3, 1)  # The sizes are these parts of a family's greatest.
LONG = 8  # With --long they are this many times as great.
ROUNDS = 8  # The least time of each size counts, since others use the processor too.
SECONDS = 20
MEGABYTES = 2_048
MOST_BYTES = 500_000_000  # What reads and writes more may take longer.
LEAST_SECONDS = 0.02  # A shorter run tells nothing.
# The texts with which the part `great` measures a command: most of the bytes that `seqaudit` reads.
GREAT_BYTES = model.MOST_BYTES * 95 // 100


def words(text):
    return tuple(tuple(line.split()) for line in text.strip().split("\n"))


# LAST, FIRST and TEXT are replaced by what is of the text: an event, a file.
OF_STREAMS = words(f"""
seqaudit audit
seqaudit chart --label {LABEL}
seqtool audit
seqtool complete
seqtool complete --as acts
seqtool why LAST
seqtool why FIRST --effects
seqtool renumber""")
# Another form of these, which is tried with --long.
FORMS_OF_STREAMS = words("seqtool complete --as streams")
OF_ACTS = words("""
seqaudit check
seqaudit replay
seqaudit drive
seqtool check
seqtool renumber""")
# The families of certificates that `audit` found for streams.
OF_CERTIFICATES = words("""
seqaudit check
seqaudit replay""")

# No time is promised for these: such an act waits for all processes of its node, and leaves an entry in the log of each.
UNPROMISED = {(name, "drive") for name in ("processes that are reset", "processes whose tracer changes")}


def of_tool(commands):
    return tuple(command for command in commands if command[0] == "seqtool")


# Families with the commands that are tried on them. If they are certified, `audit` first finds their certificates.
Group = namedtuple("Group", "families commands forms certified", defaults=((), False))
GROUPS = (
    Group(STREAMS, OF_STREAMS, FORMS_OF_STREAMS),
    Group(STREAMS, OF_CERTIFICATES, certified=True),
    Group(CROWDS, of_tool(OF_STREAMS), FORMS_OF_STREAMS),
    Group(ACTS, OF_ACTS),
    Group(CROWDS_OF_ACTS, of_tool(OF_ACTS)),
)

# The seconds of the processor that a run takes beside one that ends at once, the bytes of its text and its output, and
# its peak of memory.
Cost = namedtuple("Cost", "seconds bytes peak")


def lines_of(made):
    """The lines of what a family made: a text, or streams."""
    if not isinstance(made, list):
        return made
    return on_nodes(bundle(made)) if isinstance(made, Nodes) else bundle(made)


def write(path, lines):
    with open(path, "w", encoding="ascii") as text:
        text.writelines(lines)


class Text:
    """A text in a file."""

    def __init__(self, path, lines):
        self.path = path
        write(path, lines)

    def certify(self, program):
        """Puts the certificate that `audit` finds in its place; whether it finds one."""
        certificate = f"{self.path}.certificate"
        status, *_ = run_once([program.path, "audit"], self.path, certificate, SECONDS)
        os.replace(certificate, self.path)
        return status == 0

    def lines(self):
        with open(self.path, encoding="ascii") as text:
            yield from text

    def last(self):
        """The last event of the process that reported most."""
        most, name, count = (0, None), None, 0
        for line in self.lines():
            if line.startswith("process "):
                name, count = line.split()[1], 0
            elif is_event(line):
                count += 1
                most = max(most, (count, name))
        return [most[1] or "<0.30.0>", str(max(0, most[0] - 1))]

    def first(self):
        """The first event of the first process that reported one."""
        name = "<0.30.0>"
        for line in self.lines():
            if line.startswith("process "):
                name = line.split()[1]
            elif is_event(line):
                break
        return [name, "0"]

    def filled(self, words):
        """The words of a command, with those that are of this text."""
        of_text = {"LAST": self.last, "FIRST": self.first, "TEXT": lambda: [self.path]}
        for word in words:
            yield from of_text.get(word, lambda word=word: [word])()

    def cost(self, program, words, seconds=SECONDS):
        """The cost of one run, and its status, which is negative if it was killed."""
        written = f"{self.path}.written"
        command = [program.path, *self.filled(words)]
        status, _, taken, peak = run_once(command, self.path, written, seconds)
        count = os.path.getsize(self.path) + os.path.getsize(written)
        os.remove(written)
        return Cost(max(taken - start_of(program.path, *words), 1e-4), count, peak), status


@cache
def start_of(*command):
    """The seconds that a run takes that ends at once."""
    return min(run_once([*command, "?"], os.devnull, os.devnull, SECONDS)[2] for _ in range(5))


def exponent(costs):
    """One and the slope of the logarithms of the time for a byte, fitted by least squares."""
    xs, ys = [math.log(size) for size in costs], [math.log(cost.seconds / cost.bytes) for cost in costs.values()]
    x, y = sum(xs) / len(xs), sum(ys) / len(ys)
    return 1 + sum((a - x) * (b - y) for a, b in zip(xs, ys)) / sum((a - x) ** 2 for a in xs)


def made_sizes(folder, family, times):
    """The texts of a family, by size."""
    most = min(family.most or times * family.great, times * family.great)
    sizes = [most // part for part in PARTS]
    return {size: Text(os.path.join(folder, str(size)), lines_of(family.make(size))) for size in sizes}


def grown(name, program, words, texts):
    """The check that the command's time grows no faster than it may."""
    least = {}
    for _ in range(ROUNDS):
        for size, text in texts.items():
            cost, status = text.cost(program, words)
            if status < 0:
                return unended(name, f"at {size:,} no end in {SECONDS} s of the processor", cost)
            if status > 1:
                return Check(f"{name}: at {size:,} the text is refused", skipped=True)
            least[size] = min(cost, least.get(size, cost))
        power = exponent(least)
        is_right = power <= BOUND or least[max(texts)].seconds < LEAST_SECONDS
        if is_right:
            break
    note = f"power {power:.2f}; " + ", ".join(f"{size:,} in {it.seconds:.3f} s" for size, it in least.items())
    return Check(name, None if is_right else f"more than {BOUND}: {note}", note)


def unended(name, problem, cost):
    """A run that was killed: it passes if it was only writing more than anybody reads."""
    note = f"{problem}, {cost.bytes >> 20} MB read and written"
    return Check(name, None if cost.bytes > MOST_BYTES else note, note)


def named(part, family, program, words, certified):
    what = "its certificate, " if certified else ""
    return f"{part}: {family.name}, {what}by {program.name} {' '.join(words)}"


def numbers():
    """For each family the numbers of its group and of itself, by which a task names it to another process."""
    return [(of, number) for of, group in enumerate(GROUPS) for number in range(len(group.families))]


def chosen(group, family, programs, long):
    """The commands of a group that are tried on this family, each with its program."""
    for name, *command in group.commands + (group.forms if long else ()):
        if name in programs and (family.name, command[0]) not in UNPROMISED:
            yield programs[name], command


def tried(programs, number, long=False):
    """A family with each of the commands, at three sizes. What grows too fast there is tried at greater ones: a small
    text may lie in the processor's caches, and then the next one seems slow."""
    group = GROUPS[number[0]]
    family = group.families[number[1]]

    @cache
    def texts_of(folder, times):
        texts = made_sizes(folder, family, times)
        is_certified = not group.certified or all([text.certify(programs["seqaudit"]) for text in texts.values()])
        return texts if is_certified else None

    with tempfile.TemporaryDirectory() as folder, tempfile.TemporaryDirectory() as other:
        if not (texts := texts_of(folder, LONG if long else 1)):
            return
        for program, command in chosen(group, family, programs, long):
            name = named("growth", family, program, command, group.certified)
            check = grown(name, program, command, texts)
            if check.problem and not long and (greater := texts_of(other, LONG)):
                again = grown(name, program, command, greater)
                check = check if again.skipped else again
            yield check


# ---- acts of a whole node

# `drive` makes a reset at each process of its node. So that many resets are some 2,000,000 steps there, each of which is
# much shorter than an act by itself: together they may take so many times as long as half as many looks.
RESETS, LOOKS, TIMES = 2_000, 1_000_000, 1.5


def node_driven(program):
    """The check that resets on a node of as many processes as `seqaudit` reads take no longer than they may."""
    least = {}
    with tempfile.TemporaryDirectory() as folder:
        texts = {"resets": Text(os.path.join(folder, "resets"), resets(model.MOST_PROCESSES, RESETS)),
                 "looks": Text(os.path.join(folder, "looks"), looks(model.MOST_PROCESSES, LOOKS))}
        for _ in range(ROUNDS):
            for name, text in texts.items():
                cost, status = text.cost(program, ["drive"])
                if status:
                    return [Check(f"growth: {name} by drive", f"status {status} after {cost.seconds:.2f} s")]
                least[name] = min(cost.seconds, least.get(name, cost.seconds))
            is_right = least["resets"] <= TIMES * least["looks"]
            if is_right:
                break
    note = f"{least['resets']:.2f} s, and {LOOKS:,} looks {least['looks']:.2f} s"
    name = f"growth: {RESETS:,} resets of {model.MOST_PROCESSES:,} processes, by seqaudit drive"
    return [Check(name, None if is_right else f"more than {TIMES} times as long: {note}", note)]


# ---- texts of 64 MB

def great_of(folder, family):
    """The text of a family that is nearly as long as `seqaudit` reads, with no more events and acts than that."""
    path = os.path.join(folder, "great")
    few = family.great // 4

    def text_of(count):
        return Text(path, lines_of(family.make(family.most, count) if takes_events(family) else family.make(count)))

    def counts_of(text):
        lines = sum(1 for _ in text.lines())
        return os.path.getsize(path), lines

    size, lines = counts_of(text_of(few))
    most_lines = model.MOST_EVENTS if any(map(is_event, text_of(few).lines())) else model.MOST_ACTS
    count = int(few * min(GREAT_BYTES / size, most_lines * 0.98 / lines))
    return text_of(min(count, family.most) if family.most and not takes_events(family) else count)


def takes_events(family):
    """Whether a family with a greatest size is told how many events or acts it has."""
    return bool(family.most) and len(signature(family.make).parameters) > 1


def great(programs, number):
    """A family's text of 64 MB with each of the commands, once."""
    group = GROUPS[number[0]]
    family = group.families[number[1]]
    with tempfile.TemporaryDirectory() as folder:
        text = great_of(folder, family)
        if group.certified and not text.certify(programs["seqaudit"]):
            return
        for program, command in chosen(group, family, programs, True):
            cost, status = text.cost(program, command, 2 * SECONDS)
            yield judged(named("great", family, program, command, group.certified), text, cost, status)


def judged(name, text, cost, status):
    """The check that a run took no longer and no more than it may."""
    size = os.path.getsize(text.path)
    note = f"{size / 1e6:.0f} MB in, {(cost.bytes - size) / 1e6:.0f} MB out, status {status}: " \
           f"{cost.seconds:.2f} s, peak {cost.peak >> 20} MB"
    if status < 0:
        return unended(name, note, cost)
    if status > 1:
        return Check(f"{name}: the text is refused", skipped=True)
    return Check(name, note if cost.seconds > SECONDS or cost.peak > MEGABYTES << 20 else None, note)
