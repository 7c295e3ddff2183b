#!/usr/bin/env python3
"""Compares seqcheck, which is extracted from coq/, with the slow reading of the rules on worked cases and random bundles.

    random_checks.py SEQCHECK COUNT [FIRST] [SEQAUDIT]

It checks the input of each worked case, whatever the case's command is. Each number from FIRST (1) on makes
a random run of the machine and five bundles of it: as it is, with its acts tampered with, and three times
with a word or a line of its text changed. seqcheck must write just what the rules say, named faults too;
with SEQAUDIT, what this program writes. Of 1,000 bundles or more each verdict and the reader's faults must
have come."""

import random
import subprocess
import sys
from collections import Counter
from pathlib import Path

sys.dont_write_bytecode = True
TESTS = Path(__file__).resolve().parent
sys.path[1:1] = [str(TESTS), str(TESTS.parent / "bench")]

from hostile_use import model, tampering  # noqa: E402
from random_runs import Run, text  # noqa: E402
from random_runs import model as slow  # noqa: E402

ENOUGH = 1_000
OUTCOMES = ("yes", "no differs", "no left", "fault line", "fault order", "fault foreign", "fault unknown")


class Checker:
    """seqcheck, which is asked many times."""

    def __init__(self, program):
        self.running = subprocess.Popen([program, "check", "--many"], stdin=subprocess.PIPE, stdout=subprocess.PIPE)

    def answer(self, given):
        self.running.stdin.write(b"%d\n%b" % (len(given), given))
        self.running.stdin.flush()
        status, length = map(int, self.running.stdout.readline().split())
        return status, self.running.stdout.read(length)


def changed(bundle, chosen):
    """The bundle with one word another, or a line dropped, doubled or exchanged with the next."""
    words = list(tampering.WORD.finditer(bundle))
    lines = bundle.splitlines(keepends=True)
    place = chosen.randrange(len(lines))
    before, one, after = lines[:place], lines[place:place + 1], lines[place + 1:]
    match chosen.choice(["word"] * 4 + ["drop", "double", "exchange"]):
        case "drop":
            return "".join(before + after)
        case "double":
            return "".join(before + one + one + after)
        case "exchange":
            return "".join(before + after[:1] + one + after[1:])
    word = chosen.choice(words)
    return bundle[:word.start()] + chosen.choice(tampering.others(word[0])) + bundle[word.end():]


def bundles(number):
    """The bundles of a number."""
    chosen = random.Random(number)
    run = Run(chosen, number % 2 == 0)
    whole = text(slow.write(run.streams, run.acts))
    yield whole
    yield text(slow.write(run.streams, run.tampered()))
    for _ in range(3):
        yield changed(whole, chosen)


def worked():
    """The input of each worked case."""
    return [path.read_bytes() for path in sorted(TESTS.glob("worked*/*/stdin"))]


def judged(program, given):
    if program:
        done = subprocess.run([program, "check"], input=given, capture_output=True, check=False)
        return done.returncode, done.stdout
    wanted = model.expected(("check",), given)
    return wanted.status, wanted.output


def main():
    seqcheck, count = sys.argv[1], int(sys.argv[2])
    first = int(sys.argv[3]) if len(sys.argv) > 3 else 1
    program = sys.argv[4] if len(sys.argv) > 4 else None
    checker, counted, done = Checker(seqcheck), Counter(), 0

    def compare(given):
        said, wanted = checker.answer(given), judged(program, given)
        assert said == wanted, (given, wanted, said)
        return said

    cases = worked()
    for given in cases:
        compare(given)
    print(f"the inputs of {len(cases)} worked cases, byte for byte")
    for number in range(first, first + count // 5):
        for bundle in bundles(number):
            said = compare(bundle.encode("latin-1"))
            counted[b" ".join(said[1].split()[:1 if said[0] == 0 else 2]).decode()] += 1
            done += 1
    never = [outcome for outcome in OUTCOMES if not counted[outcome]]
    assert count < ENOUGH or not never, f"no bundle got {never}"
    print(f"{done} random bundles, byte for byte: {dict(counted.most_common())}")


if __name__ == "__main__":
    main()
