"""Tampered text: for every small change of a good text the program has to write what a slow reading of the rules gives."""

import random
import re

from . import model
from .inputs import CERTIFICATE, FOUR_SCRIPTS, GREATEST
from .program import Check, expect

WORD = re.compile(r"<[^>]*>|'?[a-z_]+'?|[0-9]+")
WORDS = ("send", "'receive'", "receive", "print", "printat", "set", "clear", "look", "reset", "restore", "tracer",
         "first", "from", "value", "both", "place", "label", "true", "false", "process", "acts", "seqtrace")
PIDS = ("<0.30.0>", "<0.31.0>", "<0.32.0>", "<1.30.0>", "<0.65535.0>", "<0.65536.0>", "<65536.0.0>", "<0.030.0>",
        "<0.30.1>", "<0.30>")
RANDOM_CHANGES = 300


def others(word):
    """The words to which a word of the text is changed."""
    if word.startswith("<"):
        return [pid for pid in PIDS if pid != word]
    if not word.isdigit():
        return [other for other in WORDS if other != word] + [word.upper(), ""]
    number = int(word)
    near = {number + 1, max(number - 1, 0), 0, number + 1_001, 2**32 - 1, 2**32, 2**64 - 1, 2**64} - {number}
    return [str(other) for other in sorted(near)] + ["0" + word, "-" + word, ""]


def changes(text):
    """Each changed text with its name: a word, a line dropped, doubled, exchanged with the next, and a byte more."""
    for found in WORD.finditer(text):
        line = text.count("\n", 0, found.start()) + 1
        for other in others(found[0]):
            yield f"line {line}, {found[0]} to {other}", text[:found.start()] + other + text[found.end():]
    lines = text.splitlines(keepends=True)
    for k in range(len(lines)):
        before, one, after = lines[:k], lines[k], lines[k + 1:]
        yield f"line {k + 1} dropped", "".join(before + after)
        yield f"line {k + 1} doubled", "".join(before + [one, one] + after)
        yield f"line {k + 1} exchanged", "".join(before + after[:1] + [one] + after[1:])
        for more in (" \n", "\r\n", "\0\n", "\n\n", "\xff\n"):
            yield f"line {k + 1} ended by {more!r}", "".join(before + [one[:-1] + more] + after)


def random_changes(text, seed):
    """Several small changes at once, the same at each run: acts exchanged over some distance, dropped and doubled."""
    chosen = random.Random(seed)
    for number in range(RANDOM_CHANGES):
        lines = text.splitlines(keepends=True)
        for _ in range(chosen.randint(2, 4)):
            a, b = chosen.randrange(1, len(lines)), chosen.randrange(1, len(lines))
            kind = chosen.randrange(3)
            if kind == 0:
                lines[a], lines[b] = lines[b], lines[a]
            elif kind == 1:
                lines.insert(a, lines[b])
            elif len(lines) > 4:
                del lines[a]
        yield f"random change {number}", "".join(lines)


def texts():
    for name, text in (("certificate", CERTIFICATE), ("four scripts", FOUR_SCRIPTS), ("greatest", GREATEST)):
        for what, changed in changes(text.decode("ascii")):
            yield f"{name}, {what}", changed.encode("latin-1")
    for what, changed in random_changes(CERTIFICATE.decode("ascii"), 20):
        yield f"certificate, {what}", changed.encode("latin-1")
    for length in range(len(CERTIFICATE) + 1):
        yield f"certificate, first {length} bytes", CERTIFICATE[:length]


def answered(program, words, part, parts):
    """The programs' answers for each changed text; if `audit` says fits, what it wrote has to be a yes of `check`."""
    for what, text in list(texts())[part::parts]:
        called = f"tampering: {' '.join(words)}: {what}"
        got = program.run(words, text)
        wanted = model.expected(words, text)
        if wanted is None:
            yield Check(called, None if model.is_driven(text, got) else f"input {text!r}\nno record of it: {got}")
        else:
            yield expect(called, wanted, got, text)
        if words == ("audit",) and got.status == 0:
            again = program.run(("check",), got.output)
            yield Check(f"{called}: checked", None if again.status == 0 else f"fits, but check says {again}")
