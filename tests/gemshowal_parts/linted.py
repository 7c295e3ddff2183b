"""The words of `lint` about mistakes in a text, one and several, the texts of `lint --fix`, and both on long texts.
`tests/gemshowal` runs these checks.

The mistakes of a text are planted here, so their lines are known; whether a text is faulty says another command."""
import json
import random
import time

from hostile_use.program import Answer, Check, expect
from shared import passed_round

# A process that prints once, and the head of a bundle in which it is the only one.
PRINT = "{seq_trace,17,{print,{0,1},<0.30.0>,[],7}}"
HEAD = "seqtrace 1\nprocess <0.30.0>\n"
NAMED = 10  # The mistakes that are named unless `--most` says another number.

HEADER = "the header seqtrace 1 or seqtrace 2"
END = "the end of the line"
BELOW_A_PROCESS = "an event, a process line, or acts"
BELOW_THE_HEADER = "a process line, or acts"
OF_EVENT = "send, 'receive' or print"
BELOW_ACTS = "below the word acts stand acts alone: processes and events stand above it"
BELOW_ITS_OWN = "an event stands below the process that reports it: a receive below its to, others below their from"
BELOW_ITS_LINE = "an event stands below the line of its process"
RISING = "list the processes by rising pid, each once"
PID_PARTS = "a pid is <NODE.NUMBER.0> with numbers up to 65535: number the processes anew"
LIST = "add its process line; or, if the text breaks off, get the whole of it"
RETURN = "a carriage return: end lines with a newline alone"
VALUES = "a value, a number up to 18446744073709551615"
QUOTES = "the word 'receive' stands in straight single quotes"
EMPTY = "the line is empty: leave it out"
NUMBERS = "a number is digits alone: seqaudit-node convert gives each term one"
LABELS = "labels are numbers: seqaudit-node convert gives each term one"
VERSION = "this version isn't known, 1 and 2 are: see what wrote the text"
NEWLINE = "a newline at the end"
BREAKS_OFF = "the text breaks off here: get the whole of it, or leave the line out"
MAY_BREAK = "the text may break off here: see whether the line is whole, and end it"
SHELLS = "a pid is written <0.30.0>, without #Pid before it"
LOG = "a log of events, and no bundle: seqaudit-node convert makes one of it"
FIRST = "the first line is seqtrace 1, or seqtrace 2 if a pid of another node than 0 is named"
VERSIONS = "1 or 2"
OF_ACT = "this act has another form: docs/FORMATS.md has all of them"
RISES = ("no run of the machine reports it, since its second count isn't above its first; on a standard node a token that was "
         "put back, or set by hand, may give such a serial")
NO_TIME = "an event ends there: leave out a time stamp, or what else stands there"
RECEIVE = "{seq_trace,17,{'receive',{0,1},<0.31.0>,<0.30.0>,7}}"
TWO = "process <0.31.0>\n"


def received(quoted):
    """A trace of one receive, whose word is written so."""
    return HEAD + RECEIVE.replace("'receive'", quoted) + f"\n{TWO}"


# The mistake, the text, its line and column, what is allowed there, and the remedy.
BY_HAND = (
    ("a comment", "seqtrace 1\n% my trace\nprocess <0.30.0>\n", 2, 1, BELOW_THE_HEADER,
     "a bundle has no comments: leave the line out"),
    ("an atom for a label", HEAD + PRINT.replace("17", "foo") + "\n", 3, 12, "a label up to 4294967295", LABELS),
    ("a pid that ends in 1", "seqtrace 1\nprocess <0.30.1>\n", 2, 15, "0, the third part of a pid",
     "the third part of a pid is 0 here: number the processes anew"),
    ("a pid's number above 65535", "seqtrace 1\nprocess <0.70000.0>\n", 2, 12, "a pid's number up to 65535", PID_PARTS),
    ("that end under header 2", "seqtrace 2\nprocess <3.30.1>\n", 2, 15, "0, the third part of a pid",
     "the third part of a pid is 0 here: number the processes anew"),
    ("an empty text", "", 1, 1, HEADER, "the text is empty"),
    ("a text of blanks", "  \n\t\r\n", 1, 1, HEADER, "the text is empty"),
    ("a mark of UTF-8 alone", "\ufeff", 1, 1, HEADER, "the text is empty"),
    ("an unknown version", "seqtrace 4\nprocess <0.30.0>\n", 1, 10, VERSIONS, VERSION),
    ("a trace whose counters have wrapped", "seqtrace 3\nprocess <0.30.0>\n", 1, 10, VERSIONS,
     "counters have wrapped: only audit, why and check --node read version 3 yet"),
    ("an unknown version of two digits", "seqtrace 12\nprocess <0.30.0>\n", 1, 11, END, VERSION),
    ("an unknown version that a mark of UTF-8 is in front of", "\ufeffseqtrace 4\nprocess <0.30.0>\n", 1, 1, HEADER, VERSION),
    ("a value that may go on", f"{HEAD}acts\nprint <0.30.0> 7", 4, 17, NEWLINE, MAY_BREAK),
    ("a label that may go on", f"{HEAD}acts\nset <0.30.0> label 1", 4, 21, NEWLINE, MAY_BREAK),
    ("a place that may go on", f"{HEAD}acts\nreceive <0.30.0> place 1", 4, 25, NEWLINE, MAY_BREAK),
    ("an act that breaks off", f"{HEAD}acts\nprint <0.30.0>", 4, 15, "one space", None),
    ("a pid that breaks off", f"{HEAD}acts\nlook <0.30.", 4, 12, "0, the third part of a pid", None),
    ("a header that breaks off", "seqtrace ", 1, 10, VERSIONS, None),
    ("a pid as a shell writes it, twice", "seqtrace 1\nprocess #Pid#PID<0.30.0>\n", 2, 9, "<", SHELLS),
    ("that with a blank between", HEAD + PRINT.replace("<0", "#Pid <0") + "\n", 3, 28, "<", SHELLS),
    ("a blank within a label", HEAD + PRINT.replace("17", "1 7") + "\n", 3, 13, ",", "a blank within a number"),
    ("acts twice", f"{HEAD}acts\nacts\n", 4, 1, "an act", "the word acts stands once"),
    ("an event below acts", f"{HEAD}acts\n{PRINT}\n", 4, 1, "an act", BELOW_ACTS),
    ("an event of another process", HEAD + PRINT.replace("30", "31") + f"\n{TWO}", 3, 28,
     "an event of <0.30.0>, this is one of <0.31.0>", BELOW_ITS_OWN),
    ("pids out of order", "seqtrace 1\nprocess <0.31.0>\nprocess <0.30.0>\n", 3, 9, "a pid above <0.31.0>", RISING),
    ("a pid that could still rise", "seqtrace 1\nprocess <0.655.0>\nprocess <0.64.0>\n", 3, 9, "a pid above <0.655.0>",
     RISING),
    ("a pid without a process line", f"{HEAD}{{seq_trace,17,{{send,{{0,1}},<0.30.0>,<0.99.0>,7}}}}\n", 3, 36,
     "a pid with a process line, <0.99.0> has none", LIST),
    ("one that has much in common with a listed one",
     f"{HEAD}{{seq_trace,17,{{send,{{0,1}},<0.30.0>,<0.318.0>,7}}}}\nprocess <0.317.0>\nprocess <0.4000.0>\n", 3, 36,
     "a pid with a process line, <0.318.0> has none", LIST),
    ("a number above the greatest", HEAD + PRINT.replace("0,1}", "0,18446744073709551616}") + "\n", 3, 25,
     "a number up to 18446744073709551615", "no number is greater"),
    ("a number below 0", HEAD + PRINT.replace("0,1}", "0,-1}") + "\n", 3, 25,
     "a number up to 18446744073709551615", "no number is below 0"),
    ("a label above the greatest", HEAD + PRINT.replace("17", "4294967296") + "\n", 3, 12, "a label up to 4294967295",
     "no label is greater: number the labels anew"),
    ("a value below 0", HEAD + PRINT.replace("7}}", "-7}}") + "\n", 3, 40, VALUES,
     "no value is greater, or below 0: seqaudit-node convert gives such a term a number"),
    ("an atom for a value", HEAD + PRINT.replace("7}}", "ok}}") + "\n", 3, 40,
     VALUES, "a number is digits alone: seqaudit-node convert gives each term one"),
    ("a full stop at the end", f"{HEAD}{PRINT}.\n", 3, 43, END, "nothing stands behind that on its line: end the line there, or leave the rest out"),
    ("an event with a time stamp", HEAD + PRINT[:-1] + ",{1,2,3}}\n", 3, 41, "}}", NO_TIME),
    ("a text that begins as a report might", "no such file\n", 1, 1, HEADER, "a bundle begins with its header"),
    ("the report of a no", "unfit <0.30.0> 2 uncaused\n", 1, 1, HEADER,
     "this is what a command found, and no bundle: see what the command before said"),
    ("a text packed by zstd", b"\x28\xb5\x2f\xfd\x00", 1, 1, HEADER, "the text is packed: unpack it by unzstd"),
    ("UTF-16 with a mark", HEAD.encode("utf-16"), 1, 1, HEADER,
     "the text is UTF-16: write it as ASCII, as by iconv -f UTF-16 -t ASCII"),
    ("UTF-16 without a mark", HEAD.encode("utf-16-le"), 1, 1, HEADER,
     "the text is UTF-16: write it as ASCII, as by iconv -f UTF-16 -t ASCII"),
    ("bytes that are no text", b"\x7fELF\x02\x01\x01\n", 1, 1, HEADER, "this is no text: a bundle is lines of ASCII"),
    ("a log of events", f"{PRINT}\n{PRINT}\n", 1, 1, HEADER, LOG),
    ("a log of events below a comment", f"%% node a@b\n{PRINT}\n", 1, 1, HEADER, LOG),
    ("events as they are collected", b"seqaudit events 2\n\x83h", 1, 1, HEADER,
     "these are events as seqaudit-node collects them: seqaudit-node convert makes a bundle of them"),
    ("the legend of a bundle", "seqaudit terms 1\nlabel\t1\tx\n", 1, 1, HEADER,
     "this is a file that seqaudit-node writes beside a bundle: that is in NAME.seqtrace"),
    ("an Erlang list", f"[{PRINT},\n {PRINT}]\n", 1, 1, HEADER,
     "an Erlang list: write each event on a line of its own, below that of its process"),
    ("a list of JSON", '[{"label":17}]\n', 1, 1, HEADER, "a list or JSON: a bundle is lines of text"),
    ("an object of JSON", '{"label":17}\n', 1, 1, HEADER, "JSON: a bundle is lines of text"),
    ("an event of another tracer", f"{HEAD}{{trace,<0.30.0>,send,7,<0.31.0>}}\n", 3, 1, BELOW_A_PROCESS,
     "an event of another tracer: only those of seq_trace have a line, so leave it out"),
    ("a port", HEAD + "{seq_trace,17,{send,{0,1},<0.30.0>,#Port<0.5>,7}}\n", 3, 36, "<",
     "a bundle has messages between processes alone, and this is no pid, but a port perhaps"),
    ("a reference for a value", HEAD + PRINT.replace("7}}", "#Ref<0.1.2.3>}}") + "\n", 3, 40, VALUES, NUMBERS),
    ("a binary, which is no pid of another node", HEAD + PRINT.replace("7}}", "<<1,2>>}}") + "\n", 3, 40, VALUES, NUMBERS),
    ("a pid of another node in a comment", f"seqtrace 1\n% by <1.5.0>\nprocess <0.30.0>\n", 2, 1, BELOW_THE_HEADER,
     "a bundle has no comments: leave the line out"),
    ("zeros between", "seqtrace 1\n\0p\n", 2, 1, BELOW_THE_HEADER,
     "a byte of 0, as in a file that wasn't written to its end: get the whole of it, since what stood there is lost"),
    ("a line of something else", f"{HEAD}\thello\n", 3, 1, BELOW_A_PROCESS,
     "this is nothing that a bundle has: mend the line if it is an event or a process, else leave it out"),
    ("an accent", HEAD + PRINT.replace("17", "1é7") + "\n", 3, 13, ",", "a byte that isn't ASCII: leave it out"),
    ("an event above the first process", f"seqtrace 1\n{PRINT}\n", 2, 1, BELOW_THE_HEADER, BELOW_ITS_LINE),
    ("an act above acts", f"{HEAD}look <0.30.0>\n", 3, 1, BELOW_A_PROCESS, "acts stand below a line acts"),
    ("an unknown act", f"{HEAD}acts\nspawn <0.30.0>\n", 4, 1, "an act",
     "acts are send, receive, print, printat, set, clear, look, reset, restore and tracer"),
    ("a leading 0", HEAD + PRINT.replace("0,1}", "0,01}") + "\n", 3, 25, "no digit behind a leading 0",
     "write the number without its leading 0"),
    ("an act without its value", f"{HEAD}acts\nsend <0.30.0> <0.30.0>\n", 4, 23, "one space",
     OF_ACT),
    ("a receive of something unknown", f"{HEAD}acts\nreceive <0.30.0> last\n", 4, 18,
     "first, from, value, both or place",
     OF_ACT),
    ("an event of another kind", HEAD + PRINT.replace("print", "spawn") + "\n", 3, 16, OF_EVENT,
     "an event is a send, a 'receive' or a print: leave any other out"),
    ("a send in quotes", HEAD + PRINT.replace("print", "'print'") + "\n", 3, 16, OF_EVENT,
     "of the three words 'receive' alone stands in quotes"),
    ("a line that breaks off at the end", HEAD + PRINT[:20], 3, 16, OF_EVENT, None),
    ("a second header", f"{HEAD}seqtrace 1\n", 3, 1, BELOW_A_PROCESS,
     "a text is one bundle: take two that were joined apart here, or leave this header out"),
    ("a process twice", "seqtrace 1\nprocess <0.30.0>\nprocess <0.30.0>\n", 3, 9, "a pid above <0.30.0>", RISING),
)

# Mistakes that `--fix` mends, with the text that it writes.
GOOD = f"{HEAD}{PRINT}\n"
BY_FIX = (
    ("no header", f"process <0.30.0>\n{PRINT}\n", 1, 1, HEADER, FIRST, GOOD),
    ("no header above a pid of another node", "process <3.30.0>\n", 1, 1, HEADER,
     FIRST, "seqtrace 2\nprocess <3.30.0>\n"),
    ("a blank at the end", f"{HEAD}{PRINT} \n", 3, 43, END, "a blank ends the line: leave it out", GOOD),
    ("an empty line", f"{HEAD}\n{PRINT}\n", 3, 1, BELOW_A_PROCESS, EMPTY, GOOD),
    ("a line of blanks", f"{HEAD} \t\n{PRINT}\n", 3, 1, BELOW_A_PROCESS, EMPTY, GOOD),
    ("a blank after a comma", HEAD + PRINT.replace("17,", "17, ") + "\n", 3, 15, "{", "a blank too many: leave it out", GOOD),
    ("a tab", HEAD + PRINT.replace("17,", "17,\t") + "\n", 3, 15, "{", "a blank too many: leave it out", GOOD),
    ("a tab between words", "seqtrace 1\nprocess\t<0.30.0>\n", 2, 1, BELOW_THE_HEADER,
     "a process line is process <NODE.NUMBER.0>", HEAD),
    ("two blanks between words", "seqtrace 1\nprocess  <0.30.0>\n", 2, 9, "<", "a blank too many: leave it out", HEAD),
    ("a blank that isn't ASCII", HEAD + PRINT.replace("17,", "17,\u00a0") + "\n", 3, 15, "{",
     "a blank too many: leave it out", GOOD),
    ("a receive without quotes", received("receive"), 3, 16, OF_EVENT, QUOTES,
     received("'receive'")),
    ("a receive in curly quotes", received("\u2018receive\u2019"), 3, 16, OF_EVENT,
     "a curly quote, which isn't ASCII: write a straight one", received("'receive'")),
    ("a receive in double quotes", received('"receive"'), 3, 16, OF_EVENT, QUOTES, received("'receive'")),
    ("a receive without quotes between blanks", received(" receive "), 3, 16, OF_EVENT,
     "a blank too many: leave it out", received("'receive'")),
    ("a pid of another node under header 1", "seqtrace 1\nprocess <3.30.0>\n", 2, 10, "node 0 under seqtrace 1",
     "a bundle that names a pid of another node begins with seqtrace 2", "seqtrace 2\nprocess <3.30.0>\n"),
    ("header 2 without need", "seqtrace 2\nprocess <0.30.0>\n", 1, 10, "1",
     "no pid of a node other than 0 is named, so the header is seqtrace 1", HEAD),
    ("no newline at the end", HEAD + PRINT, 3, 43, "a newline at the end",
     "each line is ended by a newline, the last one too", GOOD),
    ("no newline behind a value that can't go on", f"{HEAD}acts\nprint <0.30.0> 0", 4, 17, NEWLINE,
     "each line is ended by a newline, the last one too", f"{HEAD}acts\nprint <0.30.0> 0\n"),
    ("no newline behind a truth value", f"{HEAD}acts\nset <0.30.0> send true", 4, 23, NEWLINE,
     "each line is ended by a newline, the last one too", f"{HEAD}acts\nset <0.30.0> send true\n"),
    ("no newline behind the header", "seqtrace 1", 1, 11, NEWLINE,
     "each line is ended by a newline, the last one too", "seqtrace 1\n"),
    ("a mark of UTF-8 at the front", "\ufeff" + GOOD, 1, 1, HEADER, "a mark of UTF-8: leave it out", GOOD),
    ("a pid as Erlang's shell writes it", "seqtrace 1\nprocess #Pid<0.30.0>\n", 2, 9, "<",
     "a pid is written <0.30.0>, without #Pid before it", HEAD),
    ("a pid as Elixir's shell writes it", "seqtrace 1\nprocess #PID<0.30.0>\n", 2, 9, "<",
     "a pid is written <0.30.0>, without #Pid before it", HEAD),
    ("a carriage return", f"seqtrace 1\nprocess <0.30.0>\r\n{PRINT}\n", 2, 17, END, RETURN, GOOD),
    ("line ends of an old Mac", GOOD.replace("\n", "\r"), 1, 11, END, RETURN, GOOD),
)
MISTAKES = BY_HAND + tuple(it[:-1] for it in BY_FIX)

FOO = PRINT.replace("17", "foo")
ALIEN = "{seq_trace,17,{print,{0,2},<0.31.0>,[],7}}"
# Texts with several mistakes: of each the line, the column, what is allowed there and the remedy; and how many are mended.
SEVERAL = (
    ("each of three lines", f"{HEAD}{FOO}\n{PRINT} \n{FOO}\n",
     ((3, 12, "a label up to 4294967295", LABELS), (4, 43, END, "a blank ends the line: leave it out"),
      (5, 12, "a label up to 4294967295", LABELS)), 1),
    ("carriage returns", GOOD.replace("\n", "\r\n"),
     ((1, 11, END, RETURN), (2, 17, END, RETURN), (3, 43, END, RETURN)), 3),
    ("a carriage return in place of the header's newline", GOOD.replace("1\n", "1\r", 1),
     ((1, 11, END, RETURN), (2, 1, BELOW_THE_HEADER, BELOW_ITS_LINE)), 1),
    ("a pid without a line is named once, and so is each other",
     HEAD + "".join(f"{{seq_trace,17,{{send,{{0,{n}}},<0.30.0>,<0.{pid}.0>,7}}}}\n" for n, pid in enumerate((98, 99, 98), 1)),
     ((3, 36, "a pid with a process line, <0.98.0> has none", LIST),
      (4, 36, "a pid with a process line, <0.99.0> has none", LIST)), 0),
    ("a pid whose process line may be behind the cut",
     f"{HEAD}{{seq_trace,17,{{send,{{0,1}},<0.30.0>,<0.98.0>,7}}}}\n{PRINT[:20]}",
     ((3, 36, "a pid with a process line, <0.98.0> has none", LIST),
      (4, 16, OF_EVENT, BREAKS_OFF)), 0),
    ("a node under header 1 is named once", "seqtrace 1\nprocess <3.30.0>\nprocess <3.31.0>\nprocess <3.x.0>\n",
     ((2, 10, "node 0 under seqtrace 1", "a bundle that names a pid of another node begins with seqtrace 2"),
      (4, 12, "a pid's number up to 65535", PID_PARTS)), 1),
    ("a mark of UTF-8 and no header", "\ufeffprocess <0.30.0>\n",
     ((1, 1, HEADER, FIRST), (1, 1, BELOW_THE_HEADER, "a mark of UTF-8: leave it out")), 2),
    ("a mark of UTF-8 doesn't hide the process", f"\ufeffprocess <0.30.0>\n{RECEIVE.replace('31', '30')}\n",
     ((1, 1, HEADER, FIRST), (1, 1, BELOW_THE_HEADER, "a mark of UTF-8: leave it out")), 2),
    ("two blanks in an act whose number may go on", f"{HEAD}acts\nprint  <0.30.0> 7",
     ((4, 7, "<", "a blank too many: leave it out"), (4, 18, NEWLINE, MAY_BREAK)), 1),
    ("a number that a blank ends", f"{HEAD}acts\nprint <0.30.0> 7 ",
     ((4, 17, END, "a blank ends the line: leave it out"),
      (4, 18, NEWLINE, MAY_BREAK)), 1),
    ("an atom and no newline", HEAD + FOO, ((3, 12, "a label up to 4294967295", LABELS), (3, 44, NEWLINE, MAY_BREAK)), 0),
    ("acts without their word are named once", f"{HEAD}look <0.30.0>\nlook <0.30.0>\nspawn <0.30.0>\n",
     ((3, 1, BELOW_A_PROCESS, "acts stand below a line acts"),
      (5, 1, "an act", "acts are send, receive, print, printat, set, clear, look, reset, restore and tracer")), 0),
    ("a process line that can't be read doesn't spoil its events",
     f"seqtrace 1\nprocess <0.30.1>\n{PRINT}\n{FOO}\n",
     ((2, 15, "0, the third part of a pid", "the third part of a pid is 0 here: number the processes anew"),
      (4, 12, "a label up to 4294967295", LABELS)), 0),
    ("a process that comes again further down",
     "seqtrace 1\nprocess <0.30.0>\nprocess <0.32.0>\nprocess <0.31.0>\nprocess <0.32.0>\n",
     ((4, 9, "a pid above <0.32.0>", RISING), (5, 9, "a pid above <0.31.0>", RISING)), 0),
    ("an event below another's line whose counts fall", f"{HEAD}{ALIEN.replace('{0,2}', '{3,2}')}\n{TWO}",
     ((3, 25, "a number above 3", RISES), (3, 28, "an event of <0.30.0>, this is one of <0.31.0>", BELOW_ITS_OWN)), 0),
    ("a node under header 1 in a pid that can't be read", "seqtrace 1\nprocess <3.30.1>\n",
     ((2, 15, "0, the third part of a pid", "the third part of a pid is 0 here: number the processes anew"),), 0),
)


def shown(byte):
    return chr(byte) if 32 <= byte < 127 else "\\t" if byte == 9 else f"\\x{byte:02x}"


SHOWN, IN_FRONT = 150, 60


def diagnosis(text, number, column, expected, remedy):
    """The lines of `lint` about a mistake: it shows the line with a mark below the column, if there is anything to show."""
    line = text.split(b"\n")[number - 1]
    lines = [f"line {number}, column {column}: expected {expected}"]
    if line:
        cut = max(column - 1 - IN_FRONT, 0) if len(line) > SHOWN else 0
        end = cut + SHOWN
        dots = "  .. " if cut else "  "
        before = dots + "".join(map(shown, line[cut:column - 1]))
        lines += [before + "".join(map(shown, line[column - 1:end])) + (" .." if end < len(line) else ""),
                  " " * len(before) + "^"]
    return "".join(f"{it}\n" for it in [*lines, remedy]).encode()


def counted(count, named, by_fix):
    """The line after the mistakes; there is none after one that a person has to mend."""
    if count == 1 and not by_fix:
        return b""
    told = f"{count} mistake{'s' if count > 1 else ''}"
    told += f", the first {named} of them here (--most N names more)" if named < count else ""
    return (told + (f"; --fix mends {by_fix}" if by_fix else "") + "\n").encode()


def as_bytes(text):
    return text if isinstance(text, bytes) else text.encode()


def lints(program):
    """One mistake, and several: all of them are named, in the order of the text."""
    fixed = {it[0] for it in BY_FIX}
    for name, text, *mistake in MISTAKES:
        given = as_bytes(text)
        if mistake[-1] is None:
            mistake[-1] = BREAKS_OFF
        wanted = Answer(2, diagnosis(given, *mistake) + counted(1, 1, int(name in fixed)))
        yield expect(f"lint: {name}", wanted, program.run(("lint",), given), given)
    for name, text, mistakes, by_fix in SEVERAL:
        given = text.encode()
        told = b"".join(diagnosis(given, *it) for it in mistakes)
        wanted = Answer(2, told + counted(len(mistakes), len(mistakes), by_fix))
        yield expect(f"lint: {name}", wanted, program.run(("lint",), given), given)
    long_line = PRINT.replace("7}}", "7" * 400 + "}}")
    given = f"{HEAD}{long_line}\n".encode()
    wanted = diagnosis(given, 3, PRINT.index("7}}") + 1, VALUES,
                       "no value is greater, or below 0: seqaudit-node convert gives such a term a number")
    yield expect("lint: a long line is shown around the column", Answer(2, wanted), program.run(("lint",), given), given)
    yield from named(program)
    yield from unfit(program)


def named(program):
    """As many mistakes are named as are asked for, and all are counted."""
    given = (HEAD + f"{FOO}\n" * 25).encode()
    asked = (((), NAMED), (("--most", "3"), 3), (("--most", "25"), 25), (("--most", "1000"), 25), (("--most=0",), 0))
    for words, most in asked:
        told = b"".join(diagnosis(given, 3 + n, 12, "a label up to 4294967295", LABELS) for n in range(most))
        wanted = Answer(2, told + counted(25, most, 0))
        yield expect(f"lint {' '.join(words)} of 25 mistakes", wanted, program.run(("lint", *words), given), given)


def unfit(program):
    """Counts that don't rise: the text can be read, but `audit` says that no run reports it, and so does lint."""
    for serial, above in (("{3,3}", 3), ("{4,3}", 4), ("{18446744073709551615,0}", 18446744073709551615)):
        given = f"{HEAD}{PRINT}\n{PRINT.replace('{0,1}', serial)}\n".encode()
        told = diagnosis(given, 4, 24 + serial.index(",") - 1, f"a number above {above}", RISES)
        yield expect(f"lint: the counts {serial}", Answer(1, told), program.run(("lint",), given), given)
        audit = program.run(("audit",), given)
        is_right = audit.status == 1 and b"<0.30.0>#1 (prevnotbefore)" in audit.output
        yield Check(f"audit: the counts {serial}", None if is_right else str(audit))
    good = f"{HEAD}{PRINT}\n".encode()
    counts = b"ok\nprocesses 1\nevents 1\nno acts\n"
    yield expect("lint: a text without a mistake", Answer(0, counts), program.run(("lint",), good), good)


# ---- as JSON


def objects(got):
    """The object as a list: the result, and then each mistake or each count by itself."""
    told = json.loads(got.output)
    front = [{"result": told["result"]}]
    if told["result"] == "ok":
        return [*front, *({name: told[name]} for name in ("processes", "events", "acts"))]
    return [*front, *told["named"], {name: told[name] for name in ("mistakes", "by_fix")}]


def mistake_object(line, column, expected, remedy):
    return {"line": line, "column": column, "expected": expected, "remedy": remedy}


def lint_objects(program):
    """The mistakes as JSON."""
    fixed = {it[0] for it in BY_FIX}
    for name, text, *mistake in MISTAKES:
        if mistake[-1] is None:
            continue
        counts = {"mistakes": 1, "by_fix": int(name in fixed)}
        got = program.run(("lint", "--json"), as_bytes(text))
        wanted = [{"result": "faulty"}, mistake_object(*mistake), counts]
        is_right = got.status == 2 and objects(got) == wanted
        yield Check(f"lint --json: {name}", None if is_right else f"expected {wanted}\ngot {got}")
    for name, text, mistakes, by_fix in SEVERAL:
        got = program.run(("lint", "--json"), text.encode())
        wanted = [{"result": "faulty"}, *(mistake_object(*it) for it in mistakes),
                  {"mistakes": len(mistakes), "by_fix": by_fix}]
        is_right = got.status == 2 and objects(got) == wanted
        yield Check(f"lint --json: {name}", None if is_right else f"expected {wanted}\ngot {got}")
    falling = f"{HEAD}{PRINT.replace('{0,1}', '{1,1}')}\n"
    wanted = [{"result": "unfit"}, mistake_object(3, 25, "a number above 1", RISES), {"mistakes": 1, "by_fix": 0}]
    got = program.run(("lint", "--json"), falling.encode())
    yield Check("lint --json: counts that don't rise", None if (got.status, objects(got)) == (1, wanted) else str(got))
    got = program.run(("lint", "--json", "--most", "2"), (HEAD + f"{FOO}\n" * 25).encode())
    is_right = len(objects(got)) == 4 and objects(got)[-1] == {"mistakes": 25, "by_fix": 0}
    yield Check("lint --json --most 2", None if is_right else str(got))
    counts = [{"result": "ok"}, {"processes": 1}, {"events": 1}, {"acts": 2}]
    for text, wanted in ((f"{HEAD}{PRINT}\nacts\nlook <0.30.0>\nlook <0.30.0>\n", counts),
                         ("seqtrace 1\n", [{"result": "ok"}, {"processes": 0}, {"events": 0}, {"acts": None}])):
        got = program.run(("lint", "--json"), text.encode())
        yield Check("lint --json: a text that is read", None if (got.status, objects(got)) == (0, wanted) else str(got))


# ---- mended

# The text, what is written, what was mended, what is left, and the status.
MENDED = (
    ("nothing", GOOD, GOOD, "nothing", b"", 0),
    ("carriage returns", GOOD.replace("\n", "\r\n"), GOOD, "ends of lines", b"", 0),
    ("all at once",
     "\ufeff\r\nprocess #Pid<0.30.0>\r\n\r\n{seq_trace, 17, {receive, {0,1},\t<0.31.0>,<0.30.0>,7}}  \r\nprocess  <0.31.0>",
     f"{HEAD}{RECEIVE}\n{TWO}",
     "ends of lines, 4 lines, the header, the newline at the end", b"", 0),
    ("what is no bundle's is left", f"{HEAD}{FOO} \n", f"{HEAD}{FOO} \n", "nothing",
     diagnosis(f"{HEAD}{FOO} \n".encode(), 3, 12, "a label up to 4294967295", LABELS), 2),
    ("two numbers don't become one", HEAD + PRINT.replace("{0,1}", "{0,1 2}") + "\n",
     HEAD + PRINT.replace("{0,1}", "{0,1 2}") + "\n", "nothing",
     diagnosis((HEAD + PRINT.replace("{0,1}", "{0,1 2}") + "\n").encode(), 3, 26, "},", "a blank within a number"), 2),
    ("a number that may go on gets no newline", f"{HEAD}acts\nprint  <0.30.0> 7", f"{HEAD}acts\nprint <0.30.0> 7",
     "1 line", diagnosis(f"{HEAD}acts\nprint <0.30.0> 7".encode(), 4, 17, NEWLINE, MAY_BREAK), 2),
    ("a line that breaks off gets no newline", HEAD + PRINT[:20], HEAD + PRINT[:20], "nothing",
     diagnosis((HEAD + PRINT[:20]).encode(), 3, 16, OF_EVENT, BREAKS_OFF), 2),
    *((f"a term in quotes is kept: {term}", *2 * (HEAD + PRINT.replace("7}}", f"{term} }}}}") + "\n",), "nothing",
       diagnosis((HEAD + PRINT.replace("7}}", f"{term} }}}}") + "\n").encode(), 3, 40, VALUES, NUMBERS), 2)
      for term in ('"a b"', "'a  b'", '"it\'s  it"')),
    ("a comment is kept", f"% my  trace\n{HEAD}{PRINT}", f"% my  trace\n{GOOD}", "the newline at the end",
     diagnosis(f"% my  trace\n{GOOD}".encode(), 1, 1, HEADER, "a bundle has no comments: leave the line out"), 2),
    ("counts that don't rise are left", HEAD + PRINT.replace("{0,1}", "{1, 1}"), HEAD + PRINT.replace("{0,1}", "{1,1}") + "\n",
     "1 line, the newline at the end",
     diagnosis((HEAD + PRINT.replace("{0,1}", "{1,1}") + "\n").encode(), 3, 25, "a number above 1", RISES), 1),
)
NO_BUNDLE = ("a text of blanks", "a mark of UTF-8 alone", "a log of events", "a log of events below a comment", "events as they are collected", "the legend of a bundle",
             "an empty text", "the report of a no", "a text packed by zstd", "UTF-16 with a mark",
             "UTF-16 without a mark", "bytes that are no text", "an Erlang list", "a list of JSON", "an object of JSON")


def fixes(program):
    """A mistake that has one remedy is mended, and no other."""
    for name, text, *_, fixed in BY_FIX:
        got = program.run(("lint", "--fix"), text.encode())
        is_right = (got.status, got.output) == (0, fixed.encode()) and got.complaint.endswith(b"\nleft: nothing\n")
        yield Check(f"lint --fix: {name}", None if is_right else f"expected {fixed!r}\ngot {got}")
    for name, text, fixed, mended, left, status in MENDED:
        told = f"mended: {mended}\n".encode()
        told += b"left, by the lines of what is written:\n" + left if left else b"left: nothing\n"
        wanted = Answer(status, fixed.encode(), told)
        yield expect(f"lint --fix: {name}", wanted, program.run(("lint", "--fix"), text.encode()), text.encode())
    for name, text, *_, remedy in BY_HAND:
        given = as_bytes(text)
        got = program.run(("lint", "--fix"), given)
        if name in NO_BUNDLE:
            told = f"mended: nothing, and nothing is written: {remedy}\n".encode()
            yield expect(f"lint --fix: {name}", Answer(2, b"", told), got, given)
            continue
        again = program.run(("lint", "--fix"), got.output)
        is_right = got.status == 2 and again == Answer(2, got.output, again.complaint) and b"mended: nothing\n" in again.complaint
        yield Check(f"lint --fix: {name} is left, and mended once", None if is_right else f"got {got}\nagain {again}")


# ---- mistakes that are planted

# The changes of an event's line, and whether `--fix` mends them.
PLANTS = (
    (lambda line: line.replace("{seq_trace,", "{seq_trace,a"), False),
    (lambda line: line + " ", True),
    (lambda line: line + "\r", True),
    (lambda line: line.replace("},<", "}, <", 1), True),
    (lambda line: line.replace("'receive'", "receive").replace("send,", "send ,").replace("print,", "print,\t"), True),
    (lambda line: line + ".", False),
    (lambda line: line[:-1], False),
    (lambda line: line.replace("<0.", "#Pid<0.", 1), True),
    (lambda line: "%" + line, False),
    (lambda line: line.replace("{seq_trace,", "{seq_trace,0"), False),
    (lambda line: line.replace(",{", ",\u00a0{", 1), True),
    (lambda line: line.replace("seq_trace", "trace"), False),
)
ALL = ("lint", "--json", "--most", "1000")
TRACES = 60
LINES = 200


def lines_named(got):
    return [it["line"] for it in objects(got) if "line" in it]


def planted(program):
    """Mistakes at random lines: just these lines are named, the first of them is the one that another command refuses, and
    `--fix` mends just those that have one remedy."""
    draw = random.Random("lint 7")
    for n in range(TRACES):
        lines = passed_round(draw.randrange(2, 6), LINES // 2).splitlines()
        events = [k for k, line in enumerate(lines) if line.startswith("{")]
        wrong = {k: draw.choice(PLANTS) for k in draw.sample(events, draw.randrange(1, 30))}
        text = "".join(f"{wrong[k][0](line) if k in wrong else line}\n" for k, line in enumerate(lines)).encode()
        got = program.run(ALL, text)
        rows = [k + 1 for k in sorted(wrong)]
        by_fix = sum(is_mended for _, is_mended in wrong.values())
        counts = {"mistakes": len(rows), "by_fix": by_fix}
        is_right = got.status == 2 and lines_named(got) == rows and objects(got)[-1] == counts
        yield Check(f"planted {n}: each line is named", None if is_right else f"expected {rows}, {counts}\ngot {objects(got)}")
        refused = program.run(("stats",), text)
        front = f"error: standard input, line {rows[0]}, ".encode()
        yield Check(f"planted {n}: the first is refused", None if refused.complaint.startswith(front) else str(refused))
        fixed = program.run(("lint", "--fix"), text)
        left = [k + 1 for k in sorted(wrong) if not wrong[k][1]]
        again = program.run(ALL, fixed.output)
        is_right = lines_named(again) == left and fixed.status == again.status == (2 if left else 0)
        yield Check(f"planted {n}: what is left", None if is_right else f"expected {left}\ngot {again}")


def garbled(program):
    """Random bytes in a text: lint finds a mistake if and only if another command refuses the text."""
    draw = random.Random("lint 8")
    statuses = set()
    for n in range(5 * TRACES):
        text = bytearray(passed_round(draw.randrange(1, 4), 4).encode() + b"acts\nlook <0.30.0>\n")
        for _ in range(draw.randrange(3)):
            place = draw.randrange(len(text))
            change = draw.randrange(3)
            text[place:place + (change != 0)] = bytes([draw.choice(b"\n\r 0123<>,{}.acts\xe2")]) if change != 1 else b""
        given = bytes(text)
        got, other = program.run(("lint",), given), program.run(("list",), given)
        is_right = (got.status == 2) == (other.status == 2) and got.status in (0, 1, 2)
        statuses.add(got.status)
        yield Check(f"garbled {n}", None if is_right else f"input {given!r}\nlint {got}\nlist {other}")
        fixed = program.run(("lint", "--fix"), given)
        again = program.run(("lint",), fixed.output)
        is_right = fixed.status == again.status or (not fixed.output and fixed.status == 2)
        yield Check(f"garbled {n}: the status of --fix is that of what it writes",
                    None if is_right else f"input {given!r}\n{fixed}\n{again}")
    yield Check("garbled: good and faulty texts", None if {0, 2} <= statuses else str(statuses))


# ---- long texts

MOST_SECONDS = 30  # Of the processor. Some ten times what it takes; if time grew with the square, it would take hours.
UNLISTED = 60_000
MANY = 1_000_000


def in_time(program, words, given):
    began = time.monotonic()
    got = program.run(words, given, seconds=MOST_SECONDS)
    return got, time.monotonic() - began


def long_texts(program):
    """Mistakes after line 9,999 and in more than 50 MB, many at once, and many pids without a process line."""
    line = f"{{seq_trace,4294967295,{{print,{{18446744073709551614,18446744073709551615}},<0.65535.0>,[],{2**64 - 1}}}}}"
    count = 60_000_000 // len(line)
    places = (4, 10_000, 100_000, count - 1, count + 2)
    rows = ["seqtrace 1", "process <0.65535.0>", *[line] * count, "look"]
    for place in places[:-1]:
        rows[place - 1] += "."
    text = "".join(f"{it}\n" for it in rows).encode()
    got, seconds = in_time(program, ("lint", "--json"), text)
    found = [(it["line"], it["column"]) for it in objects(got) if "line" in it]
    wanted = [*((place, len(line) + 1) for place in places[:-1]), (count + 3, 1)]
    yield Check("lint of 60 MB with five mistakes", None if found == wanted else f"expected {wanted}\ngot {got}",
                note=f"{seconds:.1f} s")
    rows[count + 2] = "acts\r"
    got, seconds = in_time(program, ("lint", "--fix"), "".join(f"{it.rstrip('.')} \n" for it in rows).encode())
    rows[count + 2] = "acts"
    is_right = got.status == 0 and got.output == "".join(f"{it.rstrip('.')}\n" for it in rows).encode()
    yield Check("lint --fix of 60 MB", None if is_right else str(got), note=f"{seconds:.1f} s")
    pids = [f"<{n // 30_000}.{n % 30_000 + 100}.0>" for n in range(UNLISTED)]
    sends = "".join(f"{{seq_trace,17,{{send,{{0,{n}}},<0.30.0>,{pid},{n}}}}}\n" for n, pid in enumerate(pids, 1))
    given = f"seqtrace 2\nprocess <0.30.0>\n{sends}".encode()
    got, seconds = in_time(program, ("lint", "--json", "--most", str(UNLISTED)), given)
    is_right = lines_named(got) == list(range(3, UNLISTED + 3))
    yield Check(f"lint of {UNLISTED:,} pids without a process line", None if is_right else str(got), note=f"{seconds:.1f} s")
    many = (HEAD + f"{FOO}\n" * MANY).encode()
    got, seconds = in_time(program, ("lint", "--json"), many)
    is_right = len(lines_named(got)) == NAMED and objects(got)[-1] == {"mistakes": MANY, "by_fix": 0}
    yield Check(f"lint of {MANY:,} mistakes", None if is_right else str(got), note=f"{seconds:.1f} s")
