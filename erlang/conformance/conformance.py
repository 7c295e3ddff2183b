#!/usr/bin/env python3
"""How near the machine is to a real node (docs/MACHINE.md, "Where a standard node differs").

Random scripts run on one or two nodes, each act to its end before the next begins. What came of a
script, its replies and its streams, must be what the slow model of a standard node makes of it. A
script that fails is printed, cut down to the acts that it needs to fail. Of scripts that the
machine can do too, `seqaudit replay` must have the slow model's streams, and the rules are counted
by which a standard node differs from the machine.
"""

import argparse
import difflib
import os
import random
import shutil
import subprocess
import sys
from collections import Counter
from pathlib import Path

import machine
from machine import BROKEN, RULES, Outcome
from scripts import cut_down, random_script, written_script
from written import NODE_ONLY, WRITTEN

HOME = Path(__file__).resolve().parent
#: Standard output is for what the scripts come to.
LOGGER = "[{handler,default,logger_std_h,#{config=>#{type=>standard_error}}}]"
#: A script that finds a broken rule needs few acts; more would say that cutting down doesn't work.
MOST_ACTS_LEFT = 10
CASES_SECONDS = 120
END_SECONDS = 30


class Failure(Exception):
    """A script that fails; `acts` is how many it was cut down to."""

    def __init__(self, text, acts=None):
        super().__init__(text)
        self.acts = acts


def erl(module):
    """Runs the module's main on a node that only this machine reaches."""
    return ["env", "ERL_CRASH_DUMP_SECONDS=0", "erl", "-noshell", "-kernel",
            "inet_dist_use_interface", "{127,0,0,1}", "logger", LOGGER, "-pa", str(HOME / "ebin"),
            "-s", module, "main"]


class Nodes:
    """The nodes, which run one script after the other."""

    def __init__(self):
        self.erl = subprocess.Popen(erl("conformance_scripts"), stdin=subprocess.PIPE,
                                    stdout=subprocess.PIPE, text=True)
        self.title, self.count = self.line(), int(self.line())

    def __enter__(self):
        return self

    def __exit__(self, *_):
        """The nodes end with their input."""
        self.erl.stdin.close()
        self.erl.wait(END_SECONDS)

    def line(self):
        line = self.erl.stdout.readline()
        if not line:
            raise Failure("the node ended")
        return line.rstrip("\n")

    def run(self, script):
        self.erl.stdin.write("\n".join([*script.text(), "", ""]))
        self.erl.stdin.flush()
        lines = list(iter(self.line, ""))
        return Outcome(lines[:len(script.acts)], lines[len(script.acts):])


class Comparison:
    """Compares scripts on the nodes with the slow models, and seqaudit with the machine's."""

    def __init__(self, nodes, seqaudit=None, broken=()):
        self.nodes, self.seqaudit, self.broken = nodes, seqaudit, broken

    def check(self, script):
        """The rules by which the outcome and the streams alone differ from the machine's, or fails.

        There are none of a script that the machine can't do.
        """
        if self.seqaudit and not script.node_only and not self.is_replayed(script):
            least = cut_down(script, lambda one: not self.is_replayed(one))
            raise self.failure(least, "seqaudit replay", Outcome([], self.replayed(least)),
                               Outcome([], self.modelled(least).streams))
        found = self.nodes.run(script)
        if found != self.expected(script):
            least = cut_down(script, lambda one: self.nodes.run(one) != self.expected(one))
            raise self.failure(least, "node", self.nodes.run(least), self.expected(least))
        if script.node_only:
            return [], []
        parts = (lambda outcome: outcome, lambda outcome: outcome.streams)
        return tuple(self.rules_of(script, found, part) for part in parts)

    def expected(self, script):
        return machine.run_node(script, self.broken)

    def rules_of(self, script, found, part):
        """A least set of rules with which this part of the outcome is the machine's."""
        _, rules = machine.run(script)

        def agrees(some):
            return part(self.modelled(script, some)) == part(found)

        if agrees(()):
            return []
        for rule in RULES:
            if agrees(rules - {rule}):
                rules = rules - {rule}
        return [rule for rule in RULES if rule in rules]

    def modelled(self, script, rules=()):
        return machine.run(script, rules, self.broken)[0]

    def is_replayed(self, script):
        return self.replayed(script) == self.modelled(script).streams

    def replayed(self, script):
        """The streams of `seqaudit replay`."""
        done = subprocess.run([self.seqaudit, "replay"], input="\n".join([*script.text(), ""]),
                              capture_output=True, text=True, check=False)
        lines = done.stdout.splitlines()
        if done.returncode:
            return [f"status {done.returncode}", *lines]
        return lines[1:lines.index("acts")]

    @staticmethod
    def failure(script, name, found, slow):
        """Both outcomes of the script, with the lines in which they differ marked."""
        sides = [script.outcome_lines(outcome) for outcome in (found, slow)]
        shown = difflib.unified_diff(*sides, name, "slow model", n=sum(map(len, sides)),
                                     lineterm="")
        lines = [f"\n    {line}" for line in shown if not line.startswith("@@")]
        acts = len(script.acts)
        return Failure(f"the slow model differs from {name}, cut down to {acts} acts:"
                       + "".join(lines), acts)


def check_cases():
    """The deeds of a node that the machine has no acts for."""
    done = subprocess.run(erl("conformance_cases"), stdin=subprocess.DEVNULL, timeout=CASES_SECONDS,
                          check=False)
    if done.returncode:
        raise Failure("a case doesn't hold")


def check_written(comparison):
    """Each written script must differ from the machine by its rules alone. Returns how many ran."""
    scripts = [(name, written_script(text), rules) for name, (text, rules) in WRITTEN.items()]
    scripts += [(name, written_script(text, True), []) for name, text in NODE_ONLY.items()]
    possible = [one for one in scripts if one[1].nodes() <= comparison.nodes.count]
    for name, script, expected in possible:
        rules, _ = comparison.check(script)
        if rules != expected:
            raise Failure(f"written script {name} differs by {rules} and not by {expected}")
    return len(possible)


def check_random(comparison, seed, runs, verbose=False):
    """How many scripts agree with the machine, and need which rule: in all, and in their streams.

    Each run has a script that the machine can do, and one that only a node can.
    """
    in_all, in_streams = Counter(), Counter()
    for number in range(runs):
        run, nodes = f"{seed} {number}", comparison.nodes.count
        try:
            rules, of_streams = comparison.check(random_script(random.Random(run), nodes))
            comparison.check(random_script(random.Random(f"{run} node"), nodes, node_only=True))
        except Failure as failure:
            raise Failure(f"run {number}: {failure}", failure.acts) from None
        in_all.update(rules or ["agree"])
        in_streams.update(of_streams or ["agree"])
        if verbose:
            print(f"run {number}: {', '.join(rules) or 'agrees'}")
    return in_all, in_streams


def report(in_all, in_streams, runs):
    """What the scripts come to: of those of the machine's acts one may need several rules."""
    rows = {name: f"{rule.says} ({name})" for name, rule in RULES.items()}
    yield f"{runs} scripts of the machine's acts, and {runs} with spawns and counts that wrap:"
    yield "each has the streams and replies of a standard node's machine"
    yield f"replies, streams  streams   of the {runs} of the machine's acts"
    for name, says in [("agree", "agree with the machine"), *rows.items()]:
        yield f"{in_all[name]:16}{in_streams[name]:9}   {says}"


def find_broken(nodes, names, seed, runs):
    """Each rule that is broken on purpose must be found on the nodes, by a script that is short."""
    for name in names:
        what = f"{BROKEN[name].says} ({name})"
        if BROKEN[name].nodes > nodes.count:
            print(f"{what}: skipped, there is no second node")
            continue
        try:
            check_random(Comparison(nodes, broken=[name]), seed, runs)
        except Failure as failure:
            if failure.acts is None or failure.acts > MOST_ACTS_LEFT:
                raise
            found = str(failure) if len(names) == 1 else f"cut down to {failure.acts} acts"
            print(f"{what}: found, {found}")
        else:
            raise Failure(f"{what}: not found in {runs} runs")


def find_program():
    """The program that SEQAUDIT names, or the one that is built here or on the path."""
    if said := os.environ.get("SEQAUDIT"):
        if not Path(said).is_file():
            raise Failure(f"SEQAUDIT is {said}, and there is no such file")
        return said
    places = ("bin/seqaudit", "crates/seqaudit/out/seqaudit")
    built = [HOME.parent.parent / place for place in places]
    return next((str(file) for file in built if file.is_file()), shutil.which("seqaudit"))


def compare(nodes, seed, runs, verbose):
    seqaudit = find_program()
    print(f"streams by {seqaudit} replay and the slow model" if seqaudit
          else "seqaudit isn't built: streams by the slow model alone", flush=True)
    check_cases()
    comparison = Comparison(nodes, seqaudit)
    print(f"{check_written(comparison)} written scripts agree or differ by their rules")
    print("\n".join(report(*check_random(comparison, seed, runs, verbose), runs)))


def main():
    options = argparse.ArgumentParser(description=__doc__,
                                      formatter_class=argparse.RawDescriptionHelpFormatter)
    options.add_argument("--seed", type=int, default=1, help="of the random scripts")
    options.add_argument("--runs", type=int, default=1000, help="how many random scripts")
    options.add_argument("--broken", choices=[*BROKEN, "all"], metavar="RULE",
                         help="break this rule of the slow model on purpose, or all of them in "
                              "turn; it must be found: " + ", ".join(BROKEN))
    options.add_argument("--verbose", action="store_true",
                         help="name the rules that each run needs")
    given = options.parse_args()
    try:
        with Nodes() as nodes:
            plural = "s" if nodes.count > 1 else ""
            print(f"{nodes.title}, {nodes.count} node{plural}, seed {given.seed}")
            if given.broken:
                names = BROKEN if given.broken == "all" else [given.broken]
                find_broken(nodes, names, given.seed, given.runs)
            else:
                compare(nodes, given.seed, given.runs, given.verbose)
    except Failure as failure:
        sys.exit(f"FAILED: {failure}")


if __name__ == "__main__":
    main()
