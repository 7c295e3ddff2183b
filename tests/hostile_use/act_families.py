"""Families of acts: certificates and scripts that grow in one dimension each."""

from functools import partial

from . import queues
from .stream_families import MOST_PROCESSES, prints
from .texts import EVENTS, LABEL, Family, bundle, on_nodes, pid

ACTS_OF_FIXED = 4 * EVENTS


def act(words, count, processes=1):
    """Acts, by one process after the other."""
    return [words.format(pid(n % processes), n) + "\n" for n in range(count)]


def looks(processes, acts=ACTS_OF_FIXED):
    return bundle([[]] * processes, act("look {}", acts, processes))


def on_one_node(words, processes, acts=EVENTS // 10):
    """Each second act is this one, on a node of this many processes."""
    other = act("clear {}", acts // 2, processes)
    return bundle([[]] * processes, [line for pair in zip(other, act(words, acts // 2, processes)) for line in pair])


def resets(processes, acts):
    """Resets alone, of a node of this many processes."""
    return bundle([[]] * processes, act("reset {}", acts, processes))


def passed_on(processes, acts):
    """Each process sends to the next one, which takes the message at once."""
    of = (f"send {pid(n % processes)} {pid((n + 1) % processes)} {n}\nreceive {pid((n + 1) % processes)} first\n"
          for n in range(acts // 2))
    return bundle([[]] * processes, list(of))


def to_one(processes, acts):
    """All others send to the first process, which takes nothing."""
    return bundle([[]] * processes, [f"send {pid(1 + n % (processes - 1))} {pid(0)} {n}\n" for n in range(acts)])


def taken_by_one(processes, acts):
    """All others send to the first process, which takes each message at once."""
    of = (f"send {pid(1 + n % (processes - 1))} {pid(0)} {n}\nreceive {pid(0)} first\n" for n in range(acts // 2))
    return bundle([[]] * processes, list(of))


def wiped(acts):
    """A queue that grows while its tokens are taken away again and again."""
    send = f"send {pid(0)} {pid(0)} 1\n"
    return bundle([[]], [f"set {pid(0)} label 1\n", *([send, f"reset {pid(0)}\n", f"set {pid(0)} label 1\n"] * (acts // 3))])


def queued(kind, acts):
    return (line.decode() for pieces in (queues.sends(acts // 2), queues.WANTS[kind](acts // 2)) for line in pieces)


def differing(events):
    """A certificate whose last print has another value."""
    acts = [f"tracer {pid(0)} true\n", f"set {pid(0)} label {LABEL}\n", f"set {pid(0)} print true\n",
            *[f"print {pid(0)} 0\n"] * (events - 1), f"print {pid(0)} 1\n"]
    return bundle(prints(1, events), acts)


def left(events):
    """Acts that show nothing of many events, while as many messages wait."""
    return bundle(prints(1, events), act(f"send {pid(0)} {{}} {{}}", events))


def differing_before(events):
    """The first act that reports something is wrong, and many messages wait."""
    acts = [*act(f"send {pid(0)} {{}} {{}}", events), f"tracer {pid(0)} true\n", f"set {pid(0)} label {LABEL}\n",
            f"set {pid(0)} print true\n", f"print {pid(0)} 1\n"]
    return bundle(prints(1, 1), acts)


ACTS = (
    Family("acts of a process", partial(looks, 1), 120_000),
    Family("processes that act", looks, MOST_PROCESSES, MOST_PROCESSES),
    Family("nodes on which they act", lambda n, acts=ACTS_OF_FIXED: on_nodes(looks(n, acts)), MOST_PROCESSES,
           MOST_PROCESSES),
    Family("messages passed on by two processes", partial(passed_on, 2), 120_000),
    Family("messages passed on by 1,000 processes", partial(passed_on, 1_000), 120_000),
    Family("messages of seven to one, which takes them", partial(taken_by_one, 8), 120_000),
    Family("messages of 999 to one, which takes them", partial(taken_by_one, 1_000), 120_000),
    Family("messages of 999 to one", partial(to_one, 1_000), 120_000),
    Family("labels that are set", lambda n: bundle([[]], act("set {} label {}", n)), 120_000),
    Family("tokens that are restored",
           lambda n: bundle([[]], act(f"restore {{0}} 1 true true true {{1}} {{1}} {pid(0)}", n)), 60_000),
    Family("resets", partial(on_one_node, "reset {}", 1), 120_000),
    Family("processes that are reset", partial(on_one_node, "reset {}"), MOST_PROCESSES, MOST_PROCESSES),
    Family("tracer changes", partial(on_one_node, "tracer {} true", 1), 120_000),
    Family("processes whose tracer changes", partial(on_one_node, "tracer {} true"), MOST_PROCESSES, MOST_PROCESSES),
    Family("a queue that is wiped again and again", wiped, 120_000),
    Family("events that differ at the end", differing, 60_000),
    Family("events that are left while messages wait", left, 60_000),
    Family("an event that differs while messages wait", differing_before, 60_000),
    *(Family(f"waiting messages, {kind}", partial(queued, kind), 120_000) for kind in queues.WANTS),
)

# Texts of more processes than `seqaudit` reads.
CROWDS_OF_ACTS = (
    Family("many processes that act once", lambda n: looks(n, n), 80_000),
    Family("many processes that pass on", lambda n: passed_on(n, 2 * n), 80_000),
    Family("many processes of a node that is reset", lambda n: on_one_node("reset {}", n, 2 * n), 60_000, 65_000),
)
