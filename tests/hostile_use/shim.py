"""The library `refuse.c`, built if there is a C compiler, and runs of the program with it."""

import os
import shutil
import subprocess
from pathlib import Path

from .program import Answer

SAID = b"refused\n"


def build(folder):
    """The path of the library, or None if nothing here compiles C."""
    compiler = shutil.which("cc") or shutil.which("gcc") or shutil.which("clang")
    if compiler is None:
        return None
    library = os.path.join(folder, "refuse.so")
    source = Path(__file__).with_name("refuse.c")
    subprocess.run([compiler, "-shared", "-fPIC", "-O1", "-Wall", "-o", library, source], check=True)
    return library


def run(program, library, words, given, seconds=30, **faults):
    """The output under these faults within this many seconds of the processor, and whether one came; what the library says of
    it isn't part of the output."""
    env = {"LD_PRELOAD": library} | {name.upper(): str(value) for name, value in faults.items()}
    got = program.run(words, given, env=env, seconds=seconds)
    came = got.complaint.startswith(SAID)
    return Answer(got.status, got.output, got.complaint.removeprefix(SAID)), came
