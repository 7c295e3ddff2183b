"""Inputs at the limits of the reader and one past them, with what they take in time and memory."""

from . import model
from .inputs import GREATEST
from .program import Answer, Check, expect

YES = Answer(0, b"yes\n")


def fault(what):
    return Answer(2, f"fault {what}\n".encode())


def listed(processes):
    return b"".join(b"process <0.%d.0>\n" % number for number in range(processes))


def prints(events, pid=0, first=1):
    serials = range(first, first + events)
    return b"".join(b"{seq_trace,0,{print,{0,%d},<0.%d.0>,[],0}}\n" % (this, pid) for this in serials)


def streams(processes, events):
    """A bundle of processes, each of which reports a number of prints."""
    return b"seqtrace 1\n" + b"".join(b"process <0.%d.0>\n" % pid + prints(events, pid) for pid in range(processes))


def explained(events):
    """The certificate of one process's prints."""
    return (streams(1, events) + b"acts\ntracer <0.0.0> true\nrestore <0.0.0> 0 false false true 0 0 <0.0.0>\n"
            + b"print <0.0.0> 0\n" * events)


def received(events):
    """A bundle of one process's receives, whose sends nobody reported."""
    told = b"".join(b"{seq_trace,0,{'receive',{0,%d},<0.0.0>,<0.1.0>,0}}\n" % this for this in range(1, events + 1))
    return b"seqtrace 1\nprocess <0.0.0>\nprocess <0.1.0>\n" + told


def sent_and_received(events):
    """The certificate of `received`."""
    return (received(events) + b"acts\ntracer <0.0.0> true\nrestore <0.0.0> 0 false true false 0 0 <0.0.0>\n"
            + b"send <0.0.0> <0.1.0> 0\nreceive <0.1.0> place 0\n" * events)


def chart_of(processes, events):
    """The chart of this many processes' prints: serials rise, and at one serial the pids do."""
    head = b"label 0\n" + b"".join(b"lane %d <0.%d.0>\n" % (pid + 1, pid) for pid in range(processes))
    rows = [b"   |" * pid + b"   P" + b"   |" * (processes - pid - 1) for pid in range(processes)]
    return head + b"".join(b"%s  print    {0,%d} 0 start\n" % (row, this)
                           for this in range(1, events + 1) for row in rows)


def looks(processes, acts):
    """Looks, by one process after the other."""
    lines = [b"look <0.%d.0>\n" % pid for pid in range(processes)]
    return b"seqtrace 1\n" + listed(processes) + b"acts\n" + b"".join(lines) * (acts // processes)


def sorted_by_process(text, processes, acts):
    """The looks of `looks`, each process's in one block: a record of threads puts them back in turn."""
    head = text[:text.index(b"acts\n") + 5]
    return head + b"".join(b"look <0.%d.0>\n" % pid * (acts // processes) for pid in range(processes))


def byte_cases():
    yield "most bytes, no newline", ("check",), b"x" * model.MOST_BYTES, fault("truncated")
    yield "one byte too many", ("check",), b"x" * (model.MOST_BYTES + 1), fault("too large")
    yield "one byte too many for audit", ("audit",), b"x" * (model.MOST_BYTES + 1), fault("too large")


def count_cases():
    yield "an event too many", ("check",), streams(1, model.MOST_EVENTS + 1), fault("too many 1000003")
    yield "an act too many", ("check",), looks(1, model.MOST_ACTS + 1), fault("too many 4000004")
    yield "most acts", ("check",), looks(1, model.MOST_ACTS), YES
    yield "most acts replayed", ("replay",), (text := looks(1, model.MOST_ACTS)), Answer(0, text)
    yield "most processes", ("check",), b"seqtrace 1\n" + listed(1_024) + b"acts\n", YES
    yield "a process too many", ("check",), b"seqtrace 1\n" + listed(1_025) + b"acts\n", fault("too many 1026")
    yield "greatest values", ("check",), GREATEST, YES


def audit_cases():
    text = streams(1, model.MOST_EVENTS)
    yield "most events audited", ("audit",), text, Answer(0, explained(model.MOST_EVENTS))
    yield "and checked", ("check",), explained(model.MOST_EVENTS), YES
    text = received(model.MOST_EVENTS)
    yield "most hidden sends audited", ("audit",), text, Answer(0, sent_and_received(model.MOST_EVENTS))
    yield "an event too many for audit", ("audit",), streams(1, model.MOST_EVENTS + 1), fault("too many 1000003")
    falling = streams(1, model.MOST_EVENTS - 1) + prints(1)
    last = model.MOST_EVENTS - 1
    said = b"unfit <0.0.0> %d notrising <0.0.0> %d\n" % (last, last - 1)
    said += b"event <0.0.0> %d %sevent <0.0.0> %d %s" % (last, prints(1), last - 1, prints(1, 0, last))
    yield "most events, the last falls", ("audit",), falling, Answer(1, said)


def chart_cases(rows_a_lane):
    chart = ("chart", "--label", "0")
    yield "most events in a chart", chart, streams(1, model.MOST_EVENTS), Answer(0, chart_of(1, model.MOST_EVENTS))
    text = streams(1_024, rows_a_lane)
    yield f"1,024 lanes, {rows_a_lane * 1_024:,} rows", chart, text, Answer(0, chart_of(1_024, rows_a_lane))


def drive_cases():
    text = looks(1, model.MOST_ACTS)
    yield "one script of all acts", ("drive",), text, Answer(0, text)
    text = looks(1_024, model.MOST_ACTS)
    acts = model.MOST_ACTS // 1_024 * 1_024
    yield f"1,024 scripts of {acts:,} acts", ("drive",), sorted_by_process(text, 1_024, acts), Answer(0, text)


def measured(program, cases, seconds):
    """Runs the cases that are made one by one, and notes what each takes."""
    for name, words, text, wanted in cases():
        if not program.knows(words):
            yield Check(f"limits: {name}: {' '.join(words)} isn't there", skipped=True)
            continue
        got, taken, _, megabytes = program.measure(words, [text], seconds)
        note = f"{' '.join(words)}, {len(text) / 1e6:.1f} MB in, {len(got.output) / 1e6:.1f} MB out: " \
               f"{taken:.2f} s, peak {megabytes} MB"
        if got.status == -9:
            yield Check(f"limits: {name}", f"no output in {seconds} s of the processor", note)
        else:
            yield expect(f"limits: {name}", wanted, got, text, note)
