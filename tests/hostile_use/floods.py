"""Floods: texts whose counts or pids fall into a few places of a hash table, or into one slot of a table of guesses.
Whoever writes a text can choose them so, and a table that doesn't expect it takes time that grows as their square."""

from collections import namedtuple
from functools import cache
from itertools import count as counted, cycle, islice, product

from .program import Check

# The library's hash, which begins with a fixed seed: of each number, or pair of numbers, one multiplication, whose
# halves are joined.
SEED, MULTIPLIER, WORD = 0x243F_6A88_85A3_08D3, 0x9E37_79B9_7F4A_7C15, (1 << 64) - 1
# The receives, and the few places that their keys fall into, of as many as a table for them has.
Size = namedtuple("Size", "receives places chosen")
SMALL = Size(50_000, 1 << 16, 1 << 9)
GREAT = Size(980_000, 1 << 21, 1 << 17)  # Texts of 64 MB and more. To find the counts takes half a minute.
# The bytes of a receive's line, which its value fills up if the count is short.
LINE = 66
# The processes whose pids share places, and their acts: of MANY, 64 MB.
PROCESSES, ACTS, MANY = 16_000, 400_000, 3_400_000
# How far apart the slots of equal numbers on neighbouring nodes lie in the tables of guesses; the numbers of a node.
NODE_STEP, NUMBERS = 661, 1 << 16
# How many times as long as another text of its size a flood may take, and the seconds that don't count.
TIMES, LEAST = 2, 0.2


def joined(left, right):
    whole = left * right
    return (whole ^ whole >> 64) & WORD


def folded(hashed):
    """The hash of which a table takes the low bits."""
    return hashed ^ hashed >> 32


def hash_of_count(number):
    return folded(joined(SEED ^ number, MULTIPLIER ^ 16))


def hash_of_key(number):
    """That of a count and the sender <0.0.0>, as 16 bytes."""
    return folded(joined(SEED + 16 ^ number, MULTIPLIER))


def hash_of_pid(node, number):
    """That of a pid, as two numbers of two bytes, of which the library takes the second byte twice."""
    state = SEED
    for part in (node, number):
        state = joined(state ^ (part | part >> 8 << 16), MULTIPLIER ^ 4)
    return folded(state)


@cache
def sharing(hash_of, size):
    tried_counts = islice(counted(1), size.receives * size.places // size.chosen)
    return [number for number in tried_counts if hash_of(number) % size.places < size.chosen]


# Counts of receives from one process. A hash that begins with a digest of all keys leaves nobody to know which meet; the
# last counts are alike in their low bits.
COUNTS = {
    "counts that share places by the library's hash": lambda size: sharing(hash_of_count, size),
    "counts that share places with their sender": lambda size: sharing(hash_of_key, size),
    "counts whose low 44 bits are 0": lambda size: [number << 44 for number in range(1, size.receives)],
}


def pids_sharing_places():
    every = ((node, number) for number, node in product(range(NUMBERS), range(64)))
    shared = (pid for pid in every if hash_of_pid(*pid) % SMALL.places < SMALL.chosen)
    return sorted(islice(shared, PROCESSES))


def pids_sharing_a_slot():
    return [(node, -NODE_STEP * node % NUMBERS) for node in range(PROCESSES)]


PIDS = {
    "pids that share places by the library's hash": pids_sharing_places,
    "pids that share one slot of each table of guesses": pids_sharing_a_slot,
}


def receive_line(this):
    front, end = b"{seq_trace,1,{'receive',{0,%d},<0.0.0>,<0.1.0>," % this, b"}}\n"
    return front + b"1".ljust(LINE - len(front + end), b"0") + end


def received(counts):
    """The streams of a process that receives with these counts from one that reported nothing."""
    yield b"seqtrace 1\nprocess <0.0.0>\nprocess <0.1.0>\n"
    yield from map(receive_line, counts)


def alike(flood):
    """As many counts, as far apart, that share no places: `audit` fills in as many missing ones before it stops."""
    step = flood[-1] // len(flood) | 1
    return range(step, step * (len(flood) + 1), step)


def looked_at(pids, acts):
    """Acts of these processes, one after the other."""
    names = [b"<%d.%d.0>" % pid for pid in pids]
    yield b"seqtrace %d\n" % (2 if any(node for node, _ in pids) else 1)
    yield from (b"process %s\n" % name for name in names)
    yield b"acts\n"
    yield from (b"look %s\n" % name for name in islice(cycle(names), acts))


def compared(program, words, name, other, flood):
    """Whether the flood takes about as long as the other text."""
    label, taken = f"floods: {name}, by {' '.join(words)}", []
    for text in (other, flood):
        got, _, seconds, _ = program.measure(words, text, 60)
        if got.status > 1:  # `audit` may refuse the counts.
            return Check(label, f"status {got.status} after {seconds:.2f} s")
        taken.append(seconds)
    most = TIMES * taken[0] + LEAST
    problem = f"{taken[1]:.2f} s, and less than {most:.2f} s is promised" if taken[1] >= most else None
    return Check(label, problem, f"{taken[1]:.2f} s, others {taken[0]:.2f} s")


def tried(program, words, size=SMALL):
    """A flood of counts takes about as long as as many receives with counts that are as far apart."""
    for name, chosen in COUNTS.items():
        flood = chosen(size)
        yield compared(program, words, f"{len(flood):,} {name}", received(alike(flood)), received(flood))


def pids_tried(program, words, acts=ACTS):
    """A flood of pids takes about as long as as many acts of processes whose numbers follow one another."""
    for name, chosen in PIDS.items():
        flood = chosen()
        other = [(0, number) for number in range(len(flood))]
        label = f"{acts:,} acts of {len(flood):,} {name}"
        yield compared(program, words, label, looked_at(other, acts), looked_at(flood, acts))
