"""Random scripts that are driven: what comes out holds each process's acts in their order, and shows its streams."""

from random import Random

from . import model
from .program import Check

PROCESSES, ACTS = 8, 2_000
# How many of the acts are of each kind: %p is one of the processes, %v a small number, %b a truth value.
KINDS = (("send {me} %p %v", 40), ("receive {me} first", 20), ("receive {me} from %p", 8), ("receive {me} value %v", 8),
         ("receive {me} both %p %v", 4), ("receive {me} place %v", 4), ("print {me} %v", 10), ("printat {me} %v %v", 4),
         ("set {me} label %v", 4), ("set {me} send %b", 4), ("set {me} receive %b", 4), ("set {me} print %b", 4),
         ("clear {me}", 2), ("look {me}", 4), ("reset {me}", 1), ("tracer {me} true", 2), ("tracer {me} false", 1),
         ("restore {me} %v %b %b %b %v %v %p", 3))


# Acts on the whole node: each of a few scripts has two of each kind, and all other kinds at least once.
WIDE = ("reset {me}", "tracer {me} true")
FEW, FIFTY, TIMES = 4, 50, 20


def filled(random, shape, me, pids):
    """An act of this kind."""
    line = shape.format(me=me)
    for word, given in (("%p", pids), ("%v", range(20)), ("%b", ("true", "false"))):
        while word in line:
            line = line.replace(word, str(random.choice(given)), 1)
    return line


def bundle(pids, acts):
    lines = ["seqtrace 2", *(f"process {pid}" for pid in pids), "acts", *acts]
    return "".join(f"{line}\n" for line in lines).encode()


def random_scripts(seed):
    """The bundle of this many acts of processes on two nodes."""
    random = Random(seed)
    pids = [f"<{place // 4}.{30 + place}.0>" for place in range(PROCESSES)]
    shapes, weights = zip(*KINDS)
    acts = [filled(random, shape, random.choice(pids), pids) for shape in random.choices(shapes, weights, k=ACTS)]
    return bundle(pids, acts)


def few_scripts(seed):
    """The bundle of four scripts of fifty acts, two processes on each of two nodes: acts of all kinds, and of each kind
    that touches a whole node two."""
    random = Random(seed)
    pids = [f"<{place // 2}.{30 + place}.0>" for place in range(FEW)]
    kinds = [kind for kind in KINDS if kind[0].split()[0] not in ("reset", "tracer")]
    shapes, weights = zip(*kinds)
    acts = []
    for me in pids:
        chosen = [*WIDE, *WIDE, *shapes]
        chosen += random.choices(shapes, weights, k=FIFTY - len(chosen))
        random.shuffle(chosen)
        acts += [filled(random, shape, me, pids) for shape in chosen]
    return bundle(pids, acts)


def judged(program, called, text):
    """The scripts driven once, and `check` of what comes out."""
    got = program.run(("drive",), text)
    yield Check(called, None if model.is_driven(text, got) else f"no record of the scripts: {got}")
    again = program.run(("check",), got.output)
    yield Check(f"{called}: checked", None if again.status == 0 else f"driven, but check says {again}")


def driven(program, seeds):
    for seed in seeds:
        yield from judged(program, f"scripts: {PROCESSES} processes, {ACTS:,} acts, seed {seed}", random_scripts(seed))


def few_driven(program):
    for time in range(TIMES):
        yield from judged(program, f"scripts: {FEW} of {FIFTY} acts, time {time}", few_scripts(0))
