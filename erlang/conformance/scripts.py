"""Scripts: random ones, written ones, and scripts cut down to what they need."""

from dataclasses import dataclass, replace

from machine import SERIAL, SPAWNS, model

MOST_PROCESSES, MOST_ACTS = 5, 40
LABELS, VALUES, COUNTS = range(3), range(3), range(10)
FLAGS = ["send", "receive", "print"]
TRUTHS = ["true"] * 5 + ["false"]
#: How often each is drawn. `flags` is the three acts that set all flags of a token.
WEIGHTS = {"send": 12, "receive": 12, "print": 6, "printat": 3, "flags": 8, "set": 3, "clear": 3,
           "look": 3, "restore": 2, "reset": 1, "tracer": 1}
#: The same for scripts that only a node can do. After the greatest count it prints the least one.
NODE_WEIGHTS = WEIGHTS | {"receive": 24, "print": 9, "restore": 14, "spawn": 9, "request": 2}
NODE_COUNTS = [0, 1, 2, 2**40, 2**51, 2**56, 2**57, 2**58, SERIAL // 2 - 2, SERIAL // 2 - 1,
               -SERIAL // 2, -2, -1]
#: The first process that a script spawns.
FIRST_CHILD = 50


@dataclass(frozen=True)
class Script:
    """The processes at the start, and the acts, each a list of words as the text form spells them.

    Only a node can do a script that spawns, or has counts near the greatest.
    """
    pids: list
    acts: list
    node_only: bool = False

    def text(self):
        header = f"seqtrace {3 if self.node_only else 2 if self.nodes() > 1 else 1}"
        return [header, *(f"process {model.show(pid)}" for pid in self.pids),
                *model.write_acts(self.acts)]

    def nodes(self):
        return 1 + max(node for node, _ in self.pids)

    def outcome_lines(self, outcome):
        """Each act, with its reply where there is one, and the streams."""
        acts = [" ".join(act) for act in self.acts]
        replied = [f"{act}: {reply}" for act, reply in zip(acts, outcome.replies)]
        return (replied or acts) + outcome.streams


def random_script(chosen, nodes, node_only=False):
    """A script on one or more of so many nodes; the tracers are mostly on."""
    here = chosen.choice([[0], list(range(nodes))])
    pids = sorted((chosen.choice(here), 30 + k) for k in range(chosen.randint(1, MOST_PROCESSES)))
    first = {node: (node, number) for node, number in reversed(pids)}
    acts = [["tracer", model.show(first[node]), chosen.choice(TRUTHS)] for node in sorted(first)]
    there = list(pids)
    for _ in range(chosen.randint(1, MOST_ACTS)):
        acts += random_acts(chosen, there, node_only)
    return Script(pids, acts, node_only)


def random_acts(chosen, pids, node_only):
    """One act, or three that set all flags. A process that is spawned joins the pids."""
    choice = chosen.choice
    parent = choice(pids[:2] if node_only else pids)
    pid, other, value = model.show(parent), model.show(choice(pids)), choice(VALUES)
    weights, counts = (NODE_WEIGHTS, NODE_COUNTS) if node_only else (WEIGHTS, COUNTS)
    [word] = chosen.choices(list(weights), weights.values())
    if word == "flags":
        return [["set", pid, flag, "true"] for flag in FLAGS]
    if word in SPAWNS:
        pids.append((parent[0], FIRST_CHILD + len(pids)))
        return [[word, pid, model.show(pids[-1])]]
    rest = {
        "send": [other, value],
        "receive": choice([["first"], ["from", other], ["value", value], ["both", other, value]]),
        "print": [value],
        "printat": [choice(LABELS), value],
        "set": choice([["label", choice(LABELS)], [choice(FLAGS), choice(TRUTHS)]]),
        "restore": [choice(LABELS), *(choice(TRUTHS) for _ in FLAGS), choice(counts),
                    choice(counts), other],
        "tracer": [choice(TRUTHS)],
    }
    return [[word, pid, *map(str, rest.get(word, []))]]


def written_script(text, node_only=False):
    """A script of acts with semicolons between.

    a and b are processes of one node, c is one of another, and other letters are spawned ones.
    """
    names = {"a": (0, 30), "b": (0, 31), "c": (1, 30)}
    children = {letter: (0, FIRST_CHILD + k) for k, letter in enumerate("defghijklmnopqrstuvw")}
    words = [[model.show((names | children)[word]) if word.isalpha() and len(word) == 1 else word
              for word in act.split()] for act in text.split(";")]
    return without_idle(Script(list(names.values()), words, node_only))


def without_idle(script):
    """The script without processes that no act names."""
    named = {word for act in script.acts for word in act}
    pids = [pid for pid in script.pids if model.show(pid) in named]
    return replace(script, pids=pids or script.pids[:1])


def cut_down(script, fails):
    """The script without any act that it needs not to fail: first large parts, then single acts."""
    acts, size = script.acts, len(script.acts)
    while size:
        start, before = 0, len(acts)
        while start < len(acts):
            shorter = acts[:start] + acts[start + size:]
            if fails(replace(script, acts=shorter)):
                acts = shorter
            else:
                start += size
        if size > 1 or len(acts) == before:
            size //= 2
    return without_idle(replace(script, acts=acts))
