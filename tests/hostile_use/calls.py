"""Memory that runs out in library calls: each test that promises to hold then, in a process of its own in which the Nth
request for memory fails, for N = 1, 2, .. until none of a run fails."""

import os
import re
import shutil
import subprocess
from pathlib import Path

from .memory import MOST_REQUESTS
from .program import Check
from .shim import SAID

CRATES = Path(__file__).parents[2] / "crates"
# A call says that memory ran out or is right, and is right when it is asked again. The other tests need memory.
HOLDS = re.compile(r"without_memory|machine::refusals::|reads::|^runtime::")
# Counts of what a gate was told, to which an act adds when it is asked again; and a sink that itself refuses.
BUT = re.compile(r"a_gate_is_told|a_sink_without_memory")
TEST = re.compile(r"#\[test\]\s*fn (\w+)")
ENDED = b"test result: ok"


def has_toolchain():
    return shutil.which("rt") is not None


def tested():
    """The crates that have tests."""
    texts = ((path.relative_to(CRATES).parts[0], path.read_text()) for path in sorted(CRATES.glob("*/src/**/*.rt")))
    return sorted({crate for crate, text in texts if "#[test]" in text})


def names_in_sources(crate):
    """The tests of a crate, each with the modules that it is in."""
    sources = CRATES / crate / "src"
    for path in sorted(sources.glob("**/*.rt")):
        modules = path.relative_to(sources).with_suffix("").parts
        yield from ("::".join((*modules, name)) for name in TEST.findall(path.read_text()))


def patterns_match():
    """Each word of the patterns is in the name of a test: what names none would leave tests out without a word."""
    names = [name for crate in tested() for name in names_in_sources(crate)]
    for word in (*HOLDS.pattern.split("|"), *BUT.pattern.split("|")):
        is_there = any(re.search(word, name) for name in names)
        yield Check(f"calls: a test whose name has {word}", None if is_there else "there is none")


def is_current(program):
    """Whether the gate, or an earlier run, built the program from the sources as they are."""
    sources = (path for kind in ("src", "specs", "proofs") for path in CRATES.glob(f"*/{kind}/**/*.*"))
    return program.exists() and all(path.stat().st_mtime < program.stat().st_mtime for path in sources)


def build(crate):
    """The crate's proved test program, and what `rt` said if it couldn't build it."""
    program = CRATES / crate / "out" / f"{crate}_tests"
    if is_current(program):
        return program, None
    ran = subprocess.run(["rt", "test"], cwd=CRATES / crate, text=True, stdin=subprocess.DEVNULL,
                         stdout=subprocess.PIPE, stderr=subprocess.STDOUT)
    return program, None if ran.returncode == 0 else ran.stdout[-1000:]


def names_of(program):
    listed = subprocess.run([program, "--list"], text=True, stdout=subprocess.PIPE, check=True)
    names = (line.strip().removesuffix(": test") for line in listed.stdout.splitlines())
    return [name for name in names if HOLDS.search(name) and not BUT.search(name)]


def run(program, library, name, n):
    """Whether the test held though its Nth request failed, and whether one did."""
    env = os.environ | {"LD_PRELOAD": library, "REFUSE_REQUEST": str(n)}
    ran = subprocess.run([program, name], env=env, stdin=subprocess.DEVNULL, stdout=subprocess.PIPE,
                         stderr=subprocess.PIPE, timeout=600)
    return ran.returncode == 0 and ENDED in ran.stdout, SAID in ran.stderr


def each_refused(library, crate):
    """The Nth request fails in each test of this crate that promises to hold."""
    program, complaint = build(crate)
    yield Check(f"calls: {crate}: its tests hold without refusals", complaint)
    names = [] if complaint else names_of(program)
    if not complaint and any(HOLDS.search(name) for name in names_in_sources(crate)):
        yield Check(f"calls: {crate}: its program has tests that promise to hold", None if names else "it lists none")
    for name in names:
        refused = 0
        for n in range(1, MOST_REQUESTS):
            held, came = run(program, library, name, n)
            yield Check(f"calls: {crate}: {name}: request {n}", None if held else "the test failed")
            if not came:
                break
            refused += 1
        else:
            yield Check(f"calls: {crate}: {name}: an end", f"request {MOST_REQUESTS - 1} was refused too")
        yield Check(f"calls: {crate}: {name}: some request was refused", None if refused else "none was",
                    note=f"{refused} requests were refused")
