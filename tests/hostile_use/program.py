"""The built program, one run of it, and one check of what a run gave."""

import os
import signal
import subprocess
import tempfile
from dataclasses import dataclass

from one_run import CLOCK_FOR_PROCESSOR, limit_processor, run_once

USAGE = b"usage: seqaudit check|audit|replay|drive|chart --label N\n"
COMMANDS = (("check",), ("audit",), ("replay",), ("drive",), ("chart", "--label", "17"))


@dataclass(frozen=True)
class Check:
    """A named check: `problem` is None if it passed. A note is printed with it. A skipped check is neither."""

    name: str
    problem: str | None = None
    note: str | None = None
    skipped: bool = False


@dataclass(frozen=True)
class Answer:
    status: int
    output: bytes
    complaint: bytes = b""

    def __str__(self):
        said = f"status {self.status}, {cut(self.output)}"
        return said + (f", standard error {cut(self.complaint)}" if self.complaint else "")


FAULT_DEVICE = Answer(4, b"fault device\n")
FAULT_MEMORY = Answer(4, b"fault memory\n")


def cut(text):
    """The parts of a text that a person has to see: its length and its first and last bytes."""
    text = bytes(text)
    return repr(text) if len(text) <= 1_000 else f"{len(text):,} bytes {text[:160]!r} .. {text[-60:]!r}"


def expect(name, wanted, got, given=b"", note=None):
    """The check that the output is the right one, or one of the right ones; a message on standard error fails it too."""
    wanted = wanted if isinstance(wanted, (list, tuple)) else [wanted]
    if got in wanted:
        return Check(name, note=note)
    texts = " or ".join(map(str, wanted))
    return Check(name, f"input    {cut(given)}\nexpected {texts}\ngot      {got}", note)


@dataclass(frozen=True)
class Program:
    path: str

    @property
    def name(self):
        return os.path.basename(self.path)

    def run(self, words, given=b"", *, stdin=None, stdout=subprocess.PIPE, before=(), env=None, seconds=30):
        """Runs it on the given bytes, or on the file `stdin`, for this many seconds of the processor at most; `before` are the
        words of a command that executes it."""
        given = given if stdin is None else None
        with subprocess.Popen([*before, self.path, *words], stdin=subprocess.PIPE if stdin is None else stdin,
                              stdout=stdout, stderr=subprocess.PIPE, env=env or {}) as ran:
            limit_processor(ran.pid, seconds)
            try:
                output, complaint = ran.communicate(given, CLOCK_FOR_PROCESSOR * seconds)
            except subprocess.TimeoutExpired:
                ran.kill()
        if ran.returncode == -signal.SIGKILL:
            return Answer(-9, b"", f"killed: no answer in {seconds} s of the processor, or it hung".encode())
        return Answer(ran.returncode, output or b"", complaint)

    def knows(self, words):
        return self.run(words) != Answer(3, USAGE)

    def measure(self, words, pieces, seconds):
        """Runs it on the bytes of these pieces, from disk to disk, for this many seconds of the processor at most: the
        output, the seconds that it took, those of the processor, the peak in megabytes."""
        with tempfile.TemporaryDirectory() as folder:
            given, written = os.path.join(folder, "given"), os.path.join(folder, "written")
            with open(given, "wb") as file:
                file.writelines(pieces)
            status, taken, processor, peak = run_once([self.path, *words], given, written, seconds)
            with open(written, "rb") as file:
                return Answer(status, file.read()), taken, processor, peak >> 20
