"""The `audit` and `why` of traces whose counters have wrapped, by the laws of a standard node: sentences about traces worked
out by hand, and random runs of a node, judged by a slow model (`tests/models/slow_node.py`)."""

import json
import random
import subprocess
import sys
import tempfile
from pathlib import Path

import slow_node
from hostile_use.program import Check
from shared import is_so

RUNS = 60
TOP = Path(__file__).resolve().parents[2]
SERIAL = slow_node.SERIAL

PARENT, CHILD, OTHER = "<0.30.0>", "<0.31.0>", "<0.32.0>"


def line(kind, prev, this, sender=PARENT, to=CHILD, value=7, label=1):
    to = "[]" if kind == "print" else to
    return f"{{seq_trace,{label},{{{kind},{{{prev},{this}}},{sender},{to},{value}}}}}\n"


def trace(*streams):
    pids = (PARENT, CHILD, OTHER)
    return ("seqtrace 3\n" + "".join(f"process {pid}\n{''.join(lines)}" for pid, lines in zip(pids, streams))).encode()


REQUEST, BORN = line("send", 0, 1), line("'receive'", 0, 1)
REPLY, ANSWER = (line(kind, 1, 2, CHILD, PARENT, 8) for kind in ("send", "answer"))
SPAWN = ([REQUEST, ANSWER], [BORN, REPLY])


def spawn(parent=(), child=(), other=()):
    return trace([*SPAWN[0], *parent], [*SPAWN[1], *child], list(other))


# A trace in words, its text, the status, and the sentences in their order.
SAID = (
    ("a spawn, whose answer multiplies the counter by 16", spawn([line("print", 47, 48)]), 0,
     ["fits: 5 events of 3 processes; nothing is known to be missing\n", "This answer is not proved"]),
    ("the same as an ordinary receive", spawn([line("print", 47, 48)]).replace(b"{answer,", b"{'receive',"), 1,
     ["fits if something wasn't reported: 1 of 3 serials isn't explained by what was\n",
      "  <0.30.0>#2 {47,48}: nothing that <0.30.0> had gives it\n"]),
    ("the greatest count, and the least after it", trace([line("print", 0, 1), line("'receive'", 3, 2**59 - 1, CHILD, PARENT),
                                                          line("print", 2**59 - 1, -2**59), line("print", 2**59 - 1, 1 - 2**59)],
                                                         [line("send", 3, 2**59 - 1, CHILD, PARENT)], []), 0,
     ["fits: 5 events of 3 processes; the counter of 1 process goes on from before; nothing is known to be missing\n",
      "Before the first send or print here, the counter of <0.31.0> was 576460752303423486. "]),
    ("a counter from before the trace that is above all that a serial shows",
     trace([], [line("'receive'", 3, 2**58, OTHER), line("send", 2**58, 7, CHILD, OTHER),
                line("'receive'", 7, 2**58 + 1, OTHER), line("send", 2**58 + 1, 8, CHILD, OTHER)],
               [line("send", 3, 2**58, OTHER), line("'receive'", 2**58, 7, CHILD, OTHER),
                line("send", 7, 2**58 + 1, OTHER), line("'receive'", 2**58 + 1, 8, CHILD, OTHER)]), 0,
     ["fits: 8 events of 3 processes; the counters of 2 processes go on from before; nothing is known to be missing\n",
      "the counter of <0.31.0> was 6, that of <0.32.0> 288230376151711743. "]),
    ("a prev that isn't the count of the receive before it", trace([], [line("'receive'", 0, 1, OTHER), line("print", 8, 10, CHILD)],
                                                                       [line("send", 0, 1, OTHER)]), 1,
     ["fits if something wasn't reported: 1 of 2 serials isn't explained by what was\n", "  <0.31.0>#1 {8,10}: nothing that <0.31.0> had gives it\n"]),
    ("the same, if another counter shows that the trace began late", trace([], [line("'receive'", 3, 9, OTHER), line("print", 8, 10, CHILD)],
                                                                               [line("send", 3, 9, OTHER)]), 0,
     ["fits: 3 events of 3 processes; the counters of 2 processes go on from before; nothing is known to be missing\n"]),
    ("a process that was spawned here, and so has no counter from before",
     trace([REQUEST, line("answer", 1, 5, CHILD, PARENT, 8)], [BORN, line("send", 1, 5, CHILD, PARENT, 8)], []), 1,
     ["fits if something wasn't reported: 1 of 2 serials isn't explained by what was\n", "  <0.31.0>#1 {1,5}: 3 counts before it"]),
    ("a token that was put back", spawn([line("print", 47, 48), line("print", 0, 2)]), 0,
     ["; nothing is known to be missing; 1 token was put back\n", "  <0.30.0>#3: the token of <0.30.0>#0 was put back\n"]),
    ("a token that was put back before a receive", spawn([line("print", 47, 48), line("'receive'", 1, 3, CHILD, PARENT, 9), line("print", 3, 4)],
                                                         [line("send", 1, 3, CHILD, PARENT, 9)]), 0,
     ["; 1 token was put back\n", "  <0.30.0>#4: a token that it had made, {0,0}, was put back before <0.30.0>#3\n"]),
    ("a receive that wasn't reported", spawn([], [line("send", 1, 3, CHILD, OTHER, 9)], [line("print", 3, 4, OTHER)]), 1,
     ["fits if something wasn't reported: 1 of 4 serials isn't explained by what was\n",
      "  <0.32.0>#0 {3,4}: the receive of <0.31.0>#2 (value 9) wasn't reported\n"]),
    ("a token that was handed over", spawn([], [], [line("print", 1, 3, OTHER)]), 0,
     ["; nothing is known to be missing; 1 token was handed over\n", "  <0.32.0>#0: the token of <0.31.0>#1, {1,2}, was handed over\n"]),
    ("counts that nobody has", spawn([line("print", 47, 50)]), 1,
     ["  <0.30.0>#2 {47,50}: 2 counts before it that no event here has: what <0.30.0> may have sent or printed unreported\n"]),
    ("a message that waits", spawn([], [line("send", 1, 3, CHILD, OTHER, 9)]), 0,
     ["; 1 message has no reported receive, and may still wait\n"]),
    ("a send that wasn't reported", trace([ANSWER], [BORN], []), 1,
     ["fits if something wasn't reported: 2 receives have no reported send\n", "  <0.30.0>#0: the send of value 8 by <0.31.0> wasn't reported\n"]),
    ("a message that is received twice", spawn([], [BORN]), 1,
     ["doesn't fit: messages were received more often than they were sent: <0.31.0>#2\nthis holds if each send of a token was reported\n"]),
    ("messages of which each is sent after the other came", trace([line("'receive'", 0, 1, CHILD, PARENT), line("send", 1, 2)],
                                                                  [line("'receive'", 1, 2), line("send", 0, 1, CHILD, PARENT)], []), 1,
     ["doesn't fit: in no order of the events does each receive come after its send, because of <0.30.0>#0, <0.31.0>#0\nthis holds if each send"]),
    ("no events", trace([], [], []), 1, ["nothing to audit: the trace has no events\n"]),
)
FAULTS = (("a count with a plus", b"{0,1}", b"{0,+1}", "line 3 "), ("a count of minus 0", b"{0,1}", b"{-0,1}", "line 3 "),
          ("a count with a leading 0", b"{1,2}", b"{01,2}", "line 4 "), ("no count", b"{1,2}", b"{,2}", "line 4 "),
          ("a count below the least", b"{1,2}", b"{1,-576460752303423489}", "line 4 "), ("a count that no node has", b"{1,2}", b"{1,576460752303423488}", "line 4 "),
          ("a word that is no kind", b"{answer,", b"{answers,", "line 4 "), ("an event of another process", b"process <0.32.0>\n", b"", "line 8 "))


def audits(program, name, cases):
    """Whether `audit` of each case's text has its status, and says its sentences in their order."""
    for what, text, status, wanted in cases:
        yield is_so(f"{name}: {what}", program.run(("audit",), text), *wanted, status=status)


def sentences(program):
    yield from audits(program, "audit of a wrapped trace", SAID)
    for what, old, new, named in FAULTS:
        text = spawn(other=[line("print", 0, 1, OTHER)])
        yield is_so(f"audit of a wrapped trace: {what}", program.run(("audit",), text.replace(old, new, 1)), named, status=2)
    for words, said in ((("--label", "1"), b"cut: 4 of 5 events; the cut leaves nothing open\nfits: 4 events of 2 processes; nothing else is known to be missing\n"),
                        (("--process", OTHER), b"cut: 1 of 5 events; the cut leaves nothing open\nfits: 1 event of 1 process; nothing else is known to be missing\n"),
                        (("--each-label",), b"1: fits: 4 events of 2 processes; nothing else is known to be missing\n2: fits: 1 event of 1 process; ")):
        got = program.run(("audit", *words), spawn(other=[line("print", 0, 1, OTHER, label=2)]))
        is_right = got.status == 0 and got.output.startswith(said)
        yield Check(f"audit {words[0]} of a wrapped trace", None if is_right else str(got))
    for word in ("--proved", "--second"):
        got = program.run(("audit", word), spawn())
        is_right = got.status == 2 and b"without --proved and --second" in got.complaint and not got.output
        yield Check(f"audit {word} of a wrapped trace", None if is_right else str(got))


# How acts of SPAWN with a print after the answer may be changed, and what is refused then.
ALTERED = (
    ("nothing", b"", b"", "yes: "),
    ("the answer as an ordinary receive", b"answer <0.30.0> 0", b"receive <0.30.0> place 0", "no: act 9, line 20: print <0.30.0> 7\n"),
    ("an answer at another place", b"answer <0.30.0> 0", b"answer <0.30.0> 1", "no: act 9, line 20: print <0.30.0> 7\n"),
    ("no print", b"\nprint <0.30.0> 7", b"", "no: the acts end, and <0.30.0> has events left\n"),
    ("an answer without a place", b"answer <0.30.0> 0", b"answer <0.30.0>", ""),
    ("an answer at no place", b"answer <0.30.0> 0", b"answer <0.30.0> first", ""),
    ("an answer of nobody", b"answer <0.30.0> 0", b"answer <0.39.0> 0", ""),
)


def checks_of_acts(program):
    """The acts that `audit` writes are confirmed, and altered ones aren't."""
    with tempfile.TemporaryDirectory() as folder:
        file = Path(folder, "acts")

        def acts_of(text):
            file.unlink(missing_ok=True)
            got = program.run(("audit", "--acts", file), text)
            return got, file.read_bytes() if file.exists() else b""

        acts = acts_of(spawn([line("print", 47, 48)]))[1]
        for what, old, new, wanted in ALTERED:
            got = program.run(("check", "--node"), acts.replace(old, new, 1))
            is_right = got.output.decode().startswith(wanted) and got.status == (2 if not wanted else int(wanted != "yes: "))
            yield Check(f"check --node: {what}", None if is_right else f"{acts}\n{got}")
        for words in (("audit",), ("why", "-", PARENT, "2")):
            plain, got = (program.run(words, text) for text in (acts[:acts.index(b"acts\n")], acts))
            yield Check(f"{words[0]} of a wrapped trace with acts", None if got == plain and not got.status else f"{plain}\n{got}")
        confirmed = answered = 0
        for seed in range(2 * RUNS):
            rng = random.Random(9000 + seed)
            text = slow_node.text(slow_node.streams_of(rng, rng.randint(5, 200), hands_over=seed % 3 == 1, lossy=False)).encode()
            got, acts = acts_of(text)
            if got.status or not acts:
                continue
            again = program.run(("check", "--node"), acts)
            confirmed, answered = confirmed + 1, answered + (b"\nanswer " in acts)
            is_right = again.status == 0 and acts.startswith(text)
            yield Check(f"audit --acts of the wrapped run {seed}", None if is_right else f"{got}\n{again}")
        yield Check("audit --acts of wrapped runs, most with answers", None if answered > RUNS else f"{answered} of {confirmed}",
                    note=f"{answered} of {confirmed}")
    judge = [sys.executable, "-B", TOP / "tests/node_checks.py", program.path, str(RUNS)]
    done = subprocess.run(judge, capture_output=True, text=True, check=False)
    yield Check(f"check --node: {RUNS} random runs in which spawns end", None if done.returncode == 0 else done.stderr)


def places(told, *keys):
    return [(int(it["pid"].split(".")[1]), it["index"]) for key in keys for it in told.get(key, [])]


def wrongly_handed_over(streams, told):
    """Those that no token of another process gives, and all if no order of the events has each token before."""
    handed, wrong = told.get("handed_over", []), []
    source = slow_node.sources(streams)
    for it, (pid, i), (other, at) in zip(handed, places(told, "handed_over"), places({"of": [it["of"] for it in handed]}, "of")):
        event, had = streams[pid][i], streams[other][at]
        if other == pid or (had.prev, had.this) != (event.prev, (event.this - 1) % SERIAL):
            wrong.append(it)
    needs = {(pid, i): (other, at) for (pid, i), (other, at)
             in zip(places(told, "handed_over"), places({"of": [it["of"] for it in handed]}, "of"))}
    return wrong or (handed if slow_node.waits(streams, source | needs) and not slow_node.waits(streams, source) else [])


def random_runs(program):
    for seed in range(RUNS):
        rng = random.Random(seed)
        streams = slow_node.streams_of(rng, rng.randint(5, 200), hands_over=seed % 3 == 1, lossy=seed % 2 == 1)
        judged = slow_node.judge(streams)
        got = program.run(("audit", "--json"), slow_node.text(streams).encode())
        told = json.loads(got.output)
        named = {("unsent", "sent_before"): judged.unsent, ("cycle",): judged.cycle, ("put_backs",): judged.put_backs,
                 ("unexplained", "handed_over"): judged.ungiven}
        wrong = [f"{keys}: {found} for {wanted}" for keys, wanted in named.items()
                 if (found := sorted(places(told, *keys))) != sorted(wanted)]
        wrong += [f"handed over: {it}" for it in wrongly_handed_over(streams, told)]
        yield Check(f"audit of the wrapped run {seed}", "\n".join(wrong) or None)


# The words after `why`, the text, and what is said.
TOKEN, START, SENT, OWN = " (1, 2, 3)", " (1, 2)", " (4)", " (5, 6, 7)"
ON = spawn([line("print", 47, 48)], [], [])
TOLD = (
    ("the answer of a spawn", (PARENT, "1"), ON,
     ["<0.30.0>#1 received value 8 from <0.31.0>, label 1\n", f"because <0.31.0>#1 sent value 8 to <0.30.0>{SENT}\n",
      f"because <0.31.0>#0 received value 7 from <0.30.0>{TOKEN}\n", f"because <0.30.0>#0 sent value 7 to <0.31.0>{SENT}\n",
      f"<0.30.0>#0 begins this chain{START}\n", "this holds in each run of a standard node"]),
    ("a print after the answer, whose token isn't that of the child", (PARENT, "2"), ON,
     ["<0.30.0>#2 printed value 7, label 1\n", f"<0.30.0>#2 begins this chain{OWN}\n"]),
    ("a send that wasn't reported", (CHILD, "0"), trace([], [BORN], []),
     ["<0.31.0>#0 received value 7 from <0.30.0>, label 1\n", "nobody reported the send that <0.31.0>#0 follows\n"]),
    ("a print that no token gives", (OTHER, "0"), spawn([], [], [line("print", 1, 3, OTHER)]),
     ["what <0.32.0>#0 follows isn't known: before it <0.32.0> took a token whose receive wasn't reported, put one back or "
      "spawned a process\n"]),
    ("a print behind one that no token gives", (OTHER, "1"), spawn([], [], [line("print", 1, 3, OTHER), line("print", 1, 4, OTHER)]),
     ["what <0.32.0>#1 follows isn't known: before it <0.32.0> took a token"]),
    ("a print behind a receive of another count", (CHILD, "1"), trace([], [BORN, line("print", 7, 9, CHILD)], []),
     ["what <0.31.0>#1 follows isn't known: since <0.31.0>#0 <0.31.0> took a token"]),
    ("a token that was put back, as its count shows", (PARENT, "2"), trace([REQUEST, line("send", 0, 2), line("print", 0, 1)], [], []),
     ["<0.30.0>#2 printed value 7, label 1\n", f"<0.30.0>#2 begins this chain{OWN}\n"]),
    ("what came with a message, put back behind another one", (CHILD, "3"),
     trace([], [BORN, line("'receive'", 0, 4, OTHER, CHILD, label=2), line("print", 4, 5, CHILD, label=2), line("print", 0, 2, CHILD)], []),
     [f"because <0.31.0>#0 received value 7 from <0.30.0>{OWN}\n"]),
    ("the effects of a request", (PARENT, "0", "--effects"), ON,
     ["0 <0.30.0>#0 sent value 7 to <0.31.0>\n", f"1  <0.31.0>#0 received value 7 from <0.30.0>{SENT}\n",
      f"2   <0.31.0>#1 sent value 8 to <0.30.0>{TOKEN}\n", f"3    <0.30.0>#1 received value 8 from <0.31.0>{SENT}\n"]),
)


def causes(program):
    for what, (pid, *words), text, wanted in TOLD:
        yield is_so(f"why of a wrapped trace: {what}", program.run(("why", "-", pid, *words), text), *wanted, status=0)


def holds(premises, process, first, i):
    """Whether those of the premises (1) to (3) hold that are named, of the acts from the first events on up to event i: all
    receives and stamps of these runs are reported."""
    moves = (process.moved if 2 in premises else []) + (process.made if 3 in premises else [])
    return not any(first <= number <= i for number in moves)


def true_causes(program):
    """Whatever is said under premises has to be the origin that the stamp had, if they hold."""
    facts = asked = 0
    for seed in range(RUNS):
        rng = random.Random(1000 + seed)
        streams, processes, origins = slow_node.origins_of(rng, rng.randint(5, 200))
        for (pid, i), origin in rng.sample(sorted(origins.items(), key=lambda it: it[0]), min(6, len(origins))):
            got = program.run(("why", "--json", "-", f"<0.{pid}.0>", str(i)), slow_node.text(streams).encode())
            told = json.loads(got.output)["events"][0]
            said = {"after": told["after"], "begins": None, "other_label": None}.get(told["cause"], "open")
            # A beginning is said of the time from the receive before it on, or from the start.
            named = told["after"] and int(told["after"].split("#")[1]) + 1
            is_under = holds(told["premises"], processes[pid], named or 0, i)
            is_fact = told["grade"] == "premises" and said != "open" and is_under
            wanted = None if origin is None else f"<0.{pid}.0>#{origin}"
            asked, facts = asked + 1, facts + is_fact
            is_right = told["cause"] not in ("unknown", "moved") and (not is_fact or said == wanted)
            if not is_right:
                yield Check(f"why of the wrapped run {seed}", f"{told['event']}: {told['cause']} {told['after']}, and it was {wanted}")
    yield Check("why of wrapped runs says three in four causes under premises that hold", None if 4 * facts >= 3 * asked else f"{facts} of {asked}",
                note=f"{facts} of {asked}")


class Partial:
    """A run of which some events weren't reported: the streams, and the place of each event among all of its process."""

    def __init__(self, rng):
        self.whole, self.processes, self.origins = slow_node.origins_of(rng, rng.randint(5, 120))
        lost = {kind: rng.choice((0, 0, 0.1, 0.5, 1)) for kind in ("send", "receive", "print")}
        self.kept = {pid: [i for i, event in enumerate(events) if rng.random() >= lost.get(event.kind, 0)]
                     for pid, events in self.whole.items()}
        self.streams = {pid: [events[i] for i in self.kept[pid]] for pid, events in self.whole.items()}

    def place(self, name):
        """The process and the index among all its events."""
        pid, index = (int(it.strip("<>").split(".")[1]) if "." in it else int(it) for it in name.split("#"))
        return pid, self.kept[pid][index]

    def is_whole(self, pid):
        return len(self.kept[pid]) == len(self.whole[pid])

    def unseen(self, pid, first, i):
        """Whether a receive of a token from the first events on up to event i wasn't reported."""
        return any(self.whole[pid][it].kind == "receive" and it not in self.kept[pid] for it in range(first, i))

    def holds(self, premises, pid, first, i):
        takes = 1 in premises and self.unseen(pid, first, i)
        return not takes and holds(premises, self.processes[pid], first, i) and (5 not in premises or self.is_whole(pid))

    def wrong(self, told):
        """What is wrong about the cause of a send or print, if its premises hold; and whether they do."""
        pid, i = self.place(told["event"])
        cause, origin = told["cause"], self.origins[pid, i]
        named = self.place(told["after"])[1] if told["after"] else None
        first = 0 if named is None else named + 1
        if cause == "moved":
            before = [it for it in self.kept[pid] if it < i and (self.whole[pid][it].kind in ("receive", "answer")
                                                               or self.whole[pid][it].prev != int(told["prev"]))]
            first = before[-1] if before else 0
            return None if self.unseen(pid, first, i) or any(first <= it <= i for it in self.processes[pid].moved) else told, True
        if cause in ("several", "unknown") or told["grade"] == "perhaps" or not self.holds(told["premises"], pid, first, i):
            return None, False
        return None if origin == (named if cause == "after" else None) else told, True


def partial_causes(program):
    """The same of runs of which some events weren't reported."""
    facts = asked = 0
    for seed in range(2 * RUNS):
        rng = random.Random(2000 + seed)
        run = Partial(rng)
        text = slow_node.text(run.streams).encode()
        stamps = [(pid, i) for pid, events in run.streams.items() for i, event in enumerate(events) if event.kind in ("send", "print")]
        for pid, i in rng.sample(stamps, min(6, len(stamps))):
            got = program.run(("why", "--json", "--depth", "1", "-", f"<0.{pid}.0>", str(i)), text)
            wrong, is_fact = run.wrong(json.loads(got.output)["events"][0])
            asked, facts = asked + 1, facts + is_fact
            if wrong:
                yield Check(f"why of the partial run {seed}", str(wrong))
    yield Check("why of partial runs says half of the causes under premises that hold", None if 2 * facts >= asked else f"{facts} of {asked}",
                note=f"{facts} of {asked}")
