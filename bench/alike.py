#!/usr/bin/env python3
"""Compares what programs write on small random bundles: alike.py PROGRAM OTHER .., by seqaudit's commands.

Statuses and texts have to be those of the first program. Of `drive`, whose run is the scheduler's choice, each output
has to be a run of the same acts by that program's `check`."""

import os
import random
import sys
import tempfile
from pathlib import Path

sys.dont_write_bytecode = True
TOP = Path(__file__).resolve().parent.parent
sys.path[1:1] = [str(TOP / it) for it in ("tests", "tests/models")]

import slow_seqaudit as model  # noqa: E402
from hostile_use.scripts import random_scripts  # noqa: E402
from one_run import run_once  # noqa: E402
from random_runs import LABELS, Run, Wild, text  # noqa: E402
from same import difference  # noqa: E402

RUNS, SCRIPTS = 60, 20
COMMANDS = [["check"], ["replay"], ["drive"], ["audit"], *(["chart", "--label", str(label)] for label in LABELS)]
OF_STREAMS = [words for words in COMMANDS if words[0] in ("audit", "chart")]


def inputs():
    """Bundles, each with its name and the commands that take it."""
    for number in range(RUNS):
        chosen = random.Random(f"alike {number}")
        run = Run(chosen, number % 2 == 0)
        yield f"run {number}", COMMANDS, text(model.write(run.streams, run.acts)).encode()
        yield f"streams {number}", OF_STREAMS, text(model.write(Wild(chosen).streams, None)).encode()
    for seed in range(SCRIPTS):
        yield f"scripts {seed}", [["replay"], ["drive"]], random_scripts(seed)


def compare(programs, words, source, folder):
    """The difference, or None."""
    written = [os.path.join(folder, str(place)) for place in range(len(programs))]
    statuses = {run_once([program, *words], source, path)[0] for program, path in zip(programs, written)}
    if len(statuses) > 1:
        return f"the programs have the statuses {sorted(statuses)}"
    return difference(programs[0], words, source, written)


def main():
    programs, compared = [os.path.realpath(program) for program in sys.argv[1:]], 0
    with tempfile.TemporaryDirectory() as folder:
        source = os.path.join(folder, "source")
        for name, commands, given in inputs():
            with open(source, "wb") as file:
                file.write(given)
            for words in commands:
                if differs := compare(programs, words, source, folder):
                    sys.exit(f"{' '.join(words)}, {name}: {differs}\n{given.decode()}")
                compared += 1
    print(f"{len(programs)} programs write the same of {compared} small inputs", file=sys.stderr)


main()
