"""Failing devices: standard input that fails, and standard output that can't be written."""

import os
import pty
import tempfile
import tty

from . import model, shim
from .inputs import GREATEST, INPUTS, PRINT_ONE
from .program import FAULT_DEVICE, Answer, Check, expect

# How the program is started with a stream closed, and with SIGPIPE as the system has it at first.
WITHOUT_INPUT = ("sh", "-c", 'exec "$@" <&-', "sh")
WITHOUT_OUTPUT = ("sh", "-c", 'exec "$@" >&-', "sh")


def run_after_hangup(program, words, given):
    """Runs it on a terminal that gives these bytes and has then lost its other side: the next read fails."""
    source, other = pty.openpty()
    tty.setraw(other)
    os.write(other, given)
    os.close(other)
    try:
        return program.run(words, stdin=source)
    finally:
        os.close(source)


def sources_fail(program, words):
    """A reader that fails at once, and one that fails after each number of bytes of a short input."""
    called = f"devices: {' '.join(words)}: standard input"
    for what in ("/", "/proc/self/mem"):
        source = os.open(what, os.O_RDONLY)
        yield expect(f"{called} is {what}", FAULT_DEVICE, program.run(words, stdin=source))
        os.close(source)
    yield expect(f"{called} is closed", FAULT_DEVICE, program.run(words, before=WITHOUT_INPUT))
    for text in (PRINT_ONE, GREATEST[:100]):
        for place in range(len(text) + 1):
            got = run_after_hangup(program, words, text[:place])
            yield expect(f"{called} fails after {place} bytes", FAULT_DEVICE, got, text[:place])


def stopped(name, right, got):
    """The check that the program ended with 4 and had written a prefix of the right output."""
    if got.status == 4 and right.startswith(got.output) and got.output != right and not got.complaint:
        return Check(name)
    return Check(name, f"expected status 4 and a prefix of {right!r}\ngot      {got}")


def sinks_fail(program, name):
    """An output that is closed, full or without a reader, and a file that may have this many bytes and no more."""
    words, given = INPUTS[name]
    right = program.run(words, given).output
    called = f"devices: {name}: standard output"
    yield expect(f"{called} is closed", Answer(4, b""), program.run(words, given, before=WITHOUT_OUTPUT))
    with open("/dev/full", "wb") as full:
        yield expect(f"{called} is a full disk", Answer(4, b""), program.run(words, given, stdout=full))
    source, sink = os.pipe()
    os.close(source)
    # A shell says 141 of a program that the signal SIGPIPE ended, as `head` ends others.
    yield expect(f"{called} is a pipe without a reader", Answer(141, b""), program.run(words, given, stdout=sink))
    os.close(sink)
    for place in range(len(right) + 1):
        # Without the signal SIGXFSZ, which `trap` has ignored, a write past the limit is an error.
        before = ("prlimit", f"--fsize={place}", "sh", "-c", "trap '' XFSZ; exec \"$@\"", "sh")
        with tempfile.TemporaryFile() as file:
            got = program.run(words, given, stdout=file, before=before)
            file.seek(0)
            got = Answer(got.status, file.read(), got.complaint)
        if place == len(right):
            yield Check(f"{called} has room for all", None if model.is_right(words, given, got) else f"got {got}")
        else:
            yield stopped(f"{called} has room for {place} bytes", right, got)


def devices_err_once(program, library, name):
    """Devices that fail once, at each place, and then work: nothing more is asked of them."""
    words, given = INPUTS[name]
    right = program.run(words, given).output
    for place in range(len(given) + 1):
        got, came = shim.run(program, library, words, given, fail_read=place)
        called = f"devices: {name}: the read after {place} bytes fails once"
        yield expect(called, FAULT_DEVICE, got, given) if came else Check(called, "no read came there")
    for fault, what in (("fail_write", "fails"), ("take_nothing", "takes no byte")):
        for place in range(len(right)):
            got, came = shim.run(program, library, words, given, **{fault: place})
            called = f"devices: {name}: the write after {place} bytes {what} once"
            yield stopped(called, right, got) if came else Check(called, "no write came there")
    got, _ = shim.run(program, library, words, given, pieces=1)
    yield Check(f"devices: {name}: byte by byte", None if model.is_right(words, given, got) else f"got {got}")
