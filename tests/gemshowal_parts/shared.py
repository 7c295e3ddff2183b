"""What the tests of gemshowal have in common: texts of traces, and a run of a script's parts."""
import sys

import slow_seqaudit as model
from hostile_use.program import Check

SHOWN = 30  # The most checks that failed of which is told.

SEND = "{seq_trace,17,{send,{0,1},<0.30.0>,<0.31.0>,5}}\n"
RECEIVE = "{seq_trace,17,{'receive',{0,1},<0.30.0>,<0.31.0>,5}}\n"
PRINT = "{seq_trace,17,{print,{1,2},<0.31.0>,[],7}}\n"


def trace(*streams):
    """The text of processes 30 and on, of which these are the events."""
    return "seqtrace 1\n" + "".join(f"process <0.{number}.0>\n{events}" for number, events in enumerate(streams, 30))


# Texts that commands for many files refuse: what is wrong with each, the text, and the words about it.
FAULTS = (
    ("a line that is none", trace(SEND, "") + "bad\n", "line 5"),
    ("a line without an end", trace(SEND) + "x" * 100_000, "line 4"),
    ("an event that is another's", trace(RECEIVE), "line 3"),
    ("processes that fall", trace("", "") + "process <0.30.0>\n", "line 4"),
    ("no end", trace(SEND)[:-1], "isn't ended"),
    ("an act that is none", trace(SEND, "") + "acts\nsend <0.30.0>\n", "line 6"),
    ("another node", "seqtrace 1\nprocess <1.30.0>\n", "line 2"),
    ("a needless header", "seqtrace 2\nprocess <0.30.0>\n", "line 1"),
)


def text_of(streams):
    """The text of streams as the slow model has them."""
    return "".join(f"{line}\n" for line in model.write(streams, None))


def passed_round(processes, messages):
    """The text of processes that pass a message round."""
    pids = [f"<0.{30 + k}.0>" for k in range(processes)]
    streams = {pid: [f"process {pid}\n"] for pid in pids}
    for n in range(1, messages + 1):
        sender, receiver = pids[(n - 1) % processes], pids[n % processes]
        for kind, pid in (("send", sender), ("'receive'", receiver)):
            streams[pid].append(f"{{seq_trace,17,{{{kind},{{{n - 1},{n}}},{sender},{receiver},{n}}}}}\n")
    return "seqtrace 1\n" + "".join(line for pid in pids for line in streams[pid])


def is_so(name, got, *wanted, status=None):
    """The check that what it says has these words, in this order, and ends with this status."""
    said, at = got.output.decode() + got.complaint.decode(), 0
    for words in wanted:
        at = said.find(words, at)
        if at < 0:
            return Check(name, f"it lacks {words!r}\ngot {said}")
        at += len(words)
    return Check(name, f"status {got.status}, not {status}" if status not in (None, got.status) else None)


def run_parts(parts, given, chosen=()):
    """Runs these functions, or those whose names are chosen, and prints what their checks found; the exit status."""
    if unknown := set(chosen) - {part.__name__ for part in parts}:
        sys.exit(f"no part {', '.join(sorted(unknown))}; there are {', '.join(part.__name__ for part in parts)}")
    checks = [check for part in parts if not chosen or part.__name__ in chosen for check in part(*given)]
    failed = [it for it in checks if it.problem is not None]
    skipped = [it for it in checks if it.skipped]
    for it in checks:
        if it.note and it.problem is None:
            print(f"{it.name}: {it.note}")
    for it in skipped:
        print(f"skipped: {it.name}")
    for it in failed[:SHOWN]:
        print(f"FAILED: {it.name}\n    " + it.problem.replace("\n", "\n    "))
    if len(failed) > SHOWN:
        print(f"FAILED: {len(failed) - SHOWN} more")
    print(f"{len(checks) - len(failed) - len(skipped)} passed, {len(failed)} failed")
    return 1 if failed else 0
