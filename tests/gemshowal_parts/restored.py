"""The `audit` of ordinary traces that the manual's machine has no run of, by the rules of a standard node: sentences about
traces worked out by hand, and random runs that put tokens back, of which all, a kind of events, or a changed one is left. The acts of
each run that fits are checked by `seqtool check --node`, as SEQTOOL names it."""

import json
import os
import random
import tempfile
from collections import Counter
from pathlib import Path

import slow_node
import wrapped
from hostile_use.program import Answer, Check, Program
from wrapped import line

RUNS = 60
# How often a token is sought in two texts. The processor's time may grow so much more than the text does; it is at least the
# seconds that a start of the program may take, and a run that takes the most is ended.
GROWING, MOST_GROWTH, LEAST_SECONDS, SECONDS = (8_000, 32_000), 2, 0.05, 60
CLIENT, SERVER = wrapped.PARENT, wrapped.CHILD


def trace(client, server=()):
    return f"seqtrace 1\nprocess {CLIENT}\n{''.join(client)}process {SERVER}\n{''.join(server)}".encode()


ASK, ASKED = line("send", 0, 1), line("'receive'", 0, 1)
REPLY, REPLIED = line("send", 1, 2, SERVER, CLIENT, 8), line("'receive'", 1, 2, SERVER, CLIENT, 8)
AGAIN, ASKED_AGAIN = line("send", 0, 2, value=9), line("'receive'", 0, 2, value=9)
LATER, LATER_REPLIED = line("send", 2, 3, SERVER, CLIENT, 10), line("'receive'", 2, 3, SERVER, CLIENT, 10)

MET, IS_MET = line("send", 0, 1, label=2), line("'receive'", 0, 1, label=2)
OVER = line("print", 0, 4, SERVER)
LATE = [line("print", 3, 9, SERVER), line("send", 3, 10, SERVER, CLIENT, 8), line("print", 3, 10, SERVER, value=9), line("print", 3, 11, SERVER)]
BACK_LATE = line("'receive'", 3, 10, SERVER, CLIENT, 8)

# A trace in words, its text, the status, and the sentences in their order.
SAID = (
    ("a token that was put back", trace([ASK, REPLIED, AGAIN], [ASKED, REPLY, ASKED_AGAIN]), 0,
     ["fits: 6 events of 2 processes; nothing is known to be missing; 1 token was put back, or there was a reset\n",
      "  <0.30.0>#2: the token of <0.30.0>#0 was put back\n", "that a standard node has such a run, and its words, are only tested"]),
    ("the same without sends", trace([REPLIED, line("print", 0, 2)], [ASKED, line("print", 0, 1, SERVER)]), 0,
     ["fits: 4 events of 2 processes, with 2 sends that nobody reported; 2 tokens were put back in the run that was found, or there was a reset\n",
      "Another run may have fewer tokens put back, or others. This one has:\n"]),
    ("the same without receives", trace([ASK, line("print", 2, 3), AGAIN], [REPLY]), 0,
     ["fits: 4 events of 2 processes, with 2 receives that nobody reported; 1 message has no reported receive, and may still wait; "
      "1 token was put back in the run that was found, or there was a reset\n", "  <0.30.0>#2: the token of <0.30.0>#0 was put back\n"]),
    ("prints that weren't reported", trace([ASK, REPLIED, line("send", 0, 4, value=9)], [ASKED, REPLY, line("'receive'", 0, 4, value=9)]), 0,
     ["fits: 6 events of 2 processes, with 2 counts that no event here has; 1 token was put back in the run that was found\n"]),
    ("a token that was put back where a receive may not have been reported",
     trace([ASK, AGAIN], [ASKED, line("print", 1, 2, SERVER), line("print", 1, 3, SERVER), ASKED_AGAIN, line("print", 1, 4, SERVER)]), 0,
     ["fits: 7 events of 2 processes; nothing is known to be missing; 1 token was put back, or 1 receive wasn't reported\n",
      "  <0.31.0>#4: the token of <0.31.0>#2 was put back\n", "What nobody reported if no token was put back, in the run that was found:\n",
      "  <0.31.0>#4~1: <0.31.0> receives an unknown message from <0.31.0>, serial {0,1}, label 1\n"]),
    ("a reset", trace([ASK, REPLIED, line("send", 0, 1, value=9)], [ASKED, REPLY, line("'receive'", 0, 1, value=9),
                                                                    line("send", 1, 2, SERVER, CLIENT, 10)]), 0,
     ["; 2 tokens were put back, or there was a reset\n", "  <0.30.0>#2: a token that it had made, {0,0}, was put back\n",
      "A reset would explain 2 put-backs, as two runs in one trace would: between <0.30.0>#1 and <0.30.0>#2, between <0.31.0>#1 and <0.31.0>#2.\n"]),
    ("a serial that no token gives", trace([line("print", 0, 1), AGAIN, LATER_REPLIED, line("send", 1, 2)], [ASKED_AGAIN, LATER, line("'receive'", 1, 2)]), 1,
     ["fits if something wasn't reported: 1 of 4 serials isn't explained by what was\n", "  <0.30.0>#3 {1,2}: nothing that <0.30.0> had gives it\n",
      "If all was reported, it doesn't fit, because of <0.30.0>#3 (notrising):\n", "What to look at: "]),
    ("a token that was handed over", trace([MET, line("print", 0, 2), line("print", 0, 3)], [IS_MET, line("print", 1, 2, SERVER, label=2), OVER]), 0,
     ["fits: 6 events of 2 processes; nothing is known to be missing; 1 token was handed over\n",
      "  <0.31.0>#2: the token of <0.30.0>#2, {0,3}, was handed over\n", "that a standard node has such a run, and its words, are only tested"]),
    ("the same, if its process had it only later",
     trace([MET, line("print", 0, 2), line("'receive'", 0, 5, SERVER, CLIENT), line("print", 0, 3)],
           [IS_MET, line("print", 1, 2, SERVER, label=2), OVER, line("send", 0, 5, SERVER, CLIENT)]), 1,
     ["fits if something wasn't reported: 1 of 6 serials isn't explained by what was\n", "  <0.31.0>#2 {0,4}: "]),
    ("the same, if its process was under way with that label and prev",
     trace([MET, line("print", 0, 2), line("print", 0, 3)], [IS_MET, line("print", 1, 2, SERVER, label=2), line("print", 0, 2, SERVER), OVER]), 1,
     ["fits if something wasn't reported: 1 of 6 serials isn't explained by what was\n"]),
    ("a tracer that came late", trace([line("send", 0, 4), BACK_LATE], [line("'receive'", 0, 3, value=6), *LATE]), 0,
     ["fits: 7 events of 2 processes, with 1 send that nobody reported; the counters of 2 processes go on from before; 1 message has no "
      "reported receive, and may still wait; 1 token was put back, or there was a reset\n",
      "  <0.31.0>#0: the send of value 6 by <0.30.0> wasn't reported, and can have come before the trace\n"]),
    ("the same, if only the sender's counter shows it",
     trace([line("send", 0, 4)], [line("'receive'", 0, 3, value=6), line("print", 3, 4, SERVER), line("print", 3, 5, SERVER), line("print", 3, 5, SERVER, value=9)]), 1,
     ["fits if something wasn't reported: 1 receive has no reported send\n"]),
    ("a send that isn't reported, and came after others", trace([line("send", 0, 1), BACK_LATE], [line("'receive'", 0, 3, value=6), *LATE]), 1,
     ["fits if something wasn't reported: 1 receive has no reported send\n", "  <0.31.0>#0: the send of value 6 by <0.30.0> wasn't reported\n"]),
    ("a message that is received twice", trace([ASK], [ASKED, ASKED]), 1,
     ["doesn't fit: no run without a reset", "doesn't report it either, if each send of a token was reported: messages were received more "
      "often than they were sent: <0.31.0>#1\n"]),
    ("a print that is there twice", trace([line("print", 0, 1), line("print", 0, 1)]), 1,
     ["(notrising)\n", "What to look at: events that were collected twice", "A standard node that puts tokens back may report it, or events "
      "were collected twice, which no times tell apart: <0.30.0>#1\n"]),
)


# A trace in words of which no acts are written, its text, options, and the reason.
WITHOUT_ACTS = (
    ("without sends", trace([REPLIED, line("print", 0, 2)], [ASKED, line("print", 0, 1, SERVER)]), (),
     "the run that was found has events that nobody reported"),
    ("of a label", SAID[0][1], ("--label", "1"), "the rules were asked of the whole trace"),
    ("of counters from before", trace([line("send", 0, 4), BACK_LATE], [line("'receive'", 0, 3, value=6), *LATE]), (),
     "counters go on from before the trace"),
    ("of a serial that no token gives", trace([line("print", 0, 1), AGAIN, LATER_REPLIED, line("send", 1, 2)], [ASKED_AGAIN, LATER, line("'receive'", 1, 2)]), (),
     "the manual's machine has no run of it"),
)
SPAWN = trace([ASK, REPLIED, line("print", 47, 48), line("print", 0, 2)], [ASKED, REPLY])
SPAWNED = "seqaudit terms 1\nvalue\t8\t{spawn_reply,#Ref<0.1.2.3>,ok,<0.31.0>}\n"


def restorations(program):
    yield from wrapped.audits(program, "audit by the node's rules", SAID)
    cut = program.run(("audit", "--label", "1"), SAID[0][1])
    yield Check("audit --label of a token that was put back", None if b"1 token was put back" in cut.output and cut.status == 0 else str(cut))


class Node(slow_node.Node):
    """A node whose processes don't spawn under a token."""

    def spawn(self, pid):
        return self.born()

    def reset(self):
        for process in self.processes.values():
            process.clock = process.last = 0
            process.token = None
            process.queue.clear()


def streams_of(rng, has_reset=False):
    node = Node(rng)
    for _ in range(1 + has_reset):
        slow_node.run(node, rng.randint(5, 80), hands_over=False)
        if has_reset:
            node.reset()
    return {pid: process.events for pid, process in node.processes.items()}


def text(streams):
    return slow_node.text(streams).replace("seqtrace 3", "seqtrace 1").encode()


def told_of(program, streams):
    got = program.run(("audit", "--json"), text(streams))
    return got.status, json.loads(got.output)


def whole_runs(program):
    """What a node did fits, with as many tokens put back as the model says."""
    judged = 0
    for seed in range(2 * RUNS):
        streams = streams_of(random.Random(3000 + seed), has_reset=seed % 4 == 0)
        status, told = told_of(program, streams)
        by_node = "law" in told
        judged += by_node
        wanted = slow_node.judge(streams).put_backs if by_node else []
        is_right = status in (0, 1 if told["said"] == "empty" else 0) and wrapped.places(told, "put_backs") == wanted
        yield Check(f"audit of the run {seed}", None if is_right else f"{told['headline']}\nwanted {wanted}")
    yield Check("audit of runs that the manual's machine hasn't", None if judged > RUNS // 2 else str(judged), note=str(judged))


def restored_by(acts):
    """The process and the serial of each token that the acts put back."""
    words = (it.split() for it in acts.decode().splitlines() if it.startswith("restore "))
    return Counter((pid, f"{{{prev},{this}}}") for _, pid, *_, prev, this, _ in words)


def judged_tokens(told):
    return Counter((it["pid"], it["serial"]) for key in ("put_backs", "handed_over") for it in told[key])


def acts_of(program, text, *options, terms=""):
    """What `audit --acts` says, and the acts that it writes, if any."""
    with tempfile.TemporaryDirectory() as folder:
        trace, file = Path(folder, "it.seqtrace"), Path(folder, "acts")
        trace.write_bytes(text)
        if terms:
            trace.with_suffix(".terms").write_text(terms)
        said = program.run(("audit", "--acts", file, *options, trace)).output.decode()
        return said, file.read_bytes() if file.exists() else None


def written_acts(program):
    """The acts of a run that fits put back the tokens that are named, and no others, and the checker says yes to them."""
    for name, given, options, reason in WITHOUT_ACTS:
        said, acts = acts_of(program, given, *options)
        yield Check(f"audit --acts of a trace {name}", None if acts is None and f"No acts are written: {reason}.\n" in said else said)
    said, acts = acts_of(program, trace([], [ASKED, ASKED_AGAIN, line("print", 1, 5, SERVER)]))
    is_right = acts and "The acts are of the run that lacks receives: the run that was found has events that nobody reported.\n" in said
    yield Check("audit --acts of a token that was put back or a receive that wasn't reported", None if is_right else f"{said}\n{acts}")
    said, acts = acts_of(program, SPAWN, terms=SPAWNED)
    is_right = acts and acts.startswith(b"seqtrace 3\n") and b"\nanswer <0.30.0> 0\n" in acts
    yield Check("audit --acts of a spawn", None if is_right else f"{said}\n{acts}")
    got = program.run(("check", "--node"), acts or b"")
    yield Check("check --node of the acts of a spawn", None if got.status == 0 and got.output.startswith(b"yes: ") else str(got))
    said, acts = acts_of(program, SAID[0][1])
    yield Check("audit --acts of a token that was put back", None if acts and b"\nrestore <0.30.0> 1 true true true 0 1 <0.30.0>\nsend " in acts else said)
    if not os.environ.get("SEQTOOL"):
        yield Check("audit --acts: SEQTOOL names no program", skipped=True)
        return
    checker, judged, handed = Program(os.environ["SEQTOOL"]), 0, 0
    for seed in range(5 * RUNS):
        rng = random.Random(6000 + seed)
        node = slow_node.run(Node(rng), rng.randint(5, 80), hands_over=seed % 2 == 0)
        streams = {pid: process.events for pid, process in node.processes.items()}
        status, told = told_of(program, streams)
        if status or "law" not in told or told["earlier"] or told["sent_before"] or "found" in told:
            continue
        judged += 1
        handed += bool(told["handed_over"])
        said, acts = acts_of(program, text(streams))
        got = checker.run(("check", "--node"), acts or b"")
        is_right = got == Answer(0, b"yes\n") and restored_by(acts) == judged_tokens(told)
        yield Check(f"audit --acts of the run {seed}", None if is_right else f"{told['headline']}\n{said}\n{got}")
    yield Check("audit --acts of runs with tokens put back and handed over", None if judged > RUNS // 2 and handed else f"{judged}, {handed}",
                note=f"{judged} runs, {handed} with tokens handed over")


def sought_tokens(count):
    """A client that looks for a token again and again of which it is itself an end each time: it prints what nothing gives,
    and the server sends it that token again and again."""
    sought = [line("print", 0, 2, value=n) for n in range(count)]
    sent = [line("send", 0, 1, SERVER, CLIENT, n) for n in range(count)]
    sends, receives = line("send", 0, 3, value=count), line("'receive'", 0, 3, value=count)
    return trace([*sought, sends, line("print", 0, 2, value=count), *(it.replace("send", "'receive'") for it in sent)], [receives, *sent])


def growth(program):
    """The time for a token that only its own process had grows as the text does."""
    least = [min(program.measure(("audit", "--json"), [sought_tokens(count)], SECONDS)[2] for _ in range(3)) for count in GROWING]
    is_right = least[1] < MOST_GROWTH * GROWING[1] / GROWING[0] * max(least[0], LEAST_SECONDS)
    yield Check("audit of tokens that are looked for", None if is_right else str(least), note=f"{least[1]:.1f} s for {3 * GROWING[1]:,} events")


def partial_runs(program):
    """It fits without its sends, its receives or its prints."""
    for kind in ("send", "receive", "print"):
        found = 0
        for seed in range(RUNS):
            streams = streams_of(random.Random(4000 + seed), has_reset=seed % 4 == 0)
            left = {pid: [it for it in events if it.kind != kind] for pid, events in streams.items()}
            status, told = told_of(program, left)
            found += "found" in told
            yield Check(f"audit of the run {seed} without a {kind}", None if status == 0 or told["said"] == "empty" else told["headline"])
        yield Check(f"audit of runs without a {kind} that the manual's machine hasn't", None if found > RUNS // 10 else str(found), note=str(found))


def changed(rng, streams):
    """The streams with an event left out, doubled, exchanged or changed."""
    events = rng.choice([it for it in streams.values() if it] or [[]])
    if not events:
        return
    i = rng.randrange(len(events))
    one = events[i]
    other = one._replace(**rng.choice(({"this": one.this + 1}, {"this": max(0, one.this - 1)}, {"prev": one.prev + 1}, {"value": one.value + 1})))
    events[i:i + 2] = rng.choice(([], [one, *events[i:i + 2]], events[i:i + 2][::-1], [other, *events[i + 1:i + 2]]))


def damaged_runs(program):
    """A damaged run fits by the node's rules only if the model finds nothing against it."""
    for seed in range(5 * RUNS):
        rng = random.Random(5000 + seed)
        streams = streams_of(rng)
        changed(rng, streams)
        kinds = {it.kind for events in streams.values() for it in events}
        status, told = told_of(program, streams)
        if kinds < {"send", "receive", "print"} or "law" not in told:
            continue
        judged = slow_node.judge(streams)
        said = wrapped.places(told, "earlier", "handed_over", "sent_before")
        against = judged.cycle + [it for it in judged.unsent + judged.ungiven if it not in said]
        against += wrapped.wrongly_handed_over(streams, told)
        is_right = (status == 0) == (not against and not told["copies"])
        yield Check(f"audit of the damaged run {seed}", None if is_right else f"{told['headline']}\nthe model: {judged}")
