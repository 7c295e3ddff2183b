"""Small stacks: each command on a short text and on a longer one, within the stack that is promised. What it writes must be
what it writes with ample room, and no signal may end it."""

import os
import tempfile

from .act_families import passed_on
from .growth import FORMS_OF_STREAMS, OF_ACTS, OF_STREAMS, Text, words
from .inputs import CERTIFICATE, HIDDEN_SENDS
from .program import Check, expect
from .stream_families import ring
from .texts import bundle

KILOBYTES = {"seqaudit": 128, "seqtool": 128}
EVENTS = 20_000
# Asked besides the commands whose growth is tried.
OTHERS = words("""
seqtool --version
seqtool why 0.31.0 0
seqtool audit TEXT""")
OTHERS_OF_ACTS = words("""
seqtool check TEXT
seqtool audit""")
OF_MISTAKES = words("seqtool check")


def misspelt(text):
    """A text with mistakes of many kinds, each on some of its lines."""
    for number, line in enumerate(text):
        yield (line, line.replace("\n", "\r\n"), line.replace(",", ", "), line + "\n", line.replace("17", "x"),
               line.replace("<0.", "#Pid<0."))[number % 6]


def longer(processes, events):
    """A trace and its acts, of which the last one is wrong."""
    acts = list(passed_on(processes, events))
    return [*acts, f"print {acts[1].split()[1]} 7\n"]


def texts(folder):
    """The commands, and what they are tried on."""
    of_streams, of_acts = OF_STREAMS + FORMS_OF_STREAMS + OTHERS, OF_ACTS + OTHERS_OF_ACTS
    ring_of = list(bundle(ring(1_000, EVENTS)))
    made = ((of_streams, [HIDDEN_SENDS.decode()]), (of_streams, ring_of), (of_acts, [CERTIFICATE.decode()]),
            (of_acts, longer(1_000, EVENTS)), (OF_MISTAKES, misspelt(HIDDEN_SENDS.decode().splitlines(True))),
            (OF_MISTAKES, misspelt(ring_of)))
    for number, (commands, lines) in enumerate(made):
        text = Text(os.path.join(folder, str(number)), lines)
        yield from ((command, text) for command in commands)


def tried(programs):
    """Each command of these programs."""
    with tempfile.TemporaryDirectory() as folder:
        for (name, *command), text in texts(folder):
            if name in programs:
                yield within(programs[name], KILOBYTES[name], command, text)


def within(program, kilobytes, command, text):
    """The output of a command with a stack of this size."""
    said = f"stacks: {program.name} {' '.join(command)}, {os.path.getsize(text.path):,} bytes within {kilobytes} KB"
    command = list(text.filled(command))
    with open(text.path, "rb") as given:
        ample = program.run(command, stdin=given)
        given.seek(0)
        narrow = program.run(command, stdin=given, before=("prlimit", f"--stack={kilobytes << 10}"))
    if ample.status not in (0, 1, 2):
        return Check(said, f"with ample room: {ample}")
    if command == ["drive"]:  # Which run of the scripts it writes is the threads' choice.
        ample, narrow = ample.status, narrow.status
    return expect(said, ample, narrow)
