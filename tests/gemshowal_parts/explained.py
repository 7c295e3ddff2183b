"""The words of `explain` about the message that is due, compared with `check` and the slow model's machine."""
import copy
import random
import re

import slow_seqaudit as model
from hostile_use.program import Check

# A receive of a message that another node's process sent, which is all that is left.
FAR = "{seq_trace,17,{'receive',{0,1},<1.30.0>,<2.31.0>,7}}"
TRACERS = "tracer <1.30.0> true\ntracer <2.31.0> true\n"
FAR_UNTRACED = "tracer <1.30.0> true\n"
RECEIVER_RESET = "reset <2.31.0>\n"


def sent(value=7, label=17, flag="receive", before=""):
    """Acts that send a message as the first of a new trace, after other acts of that trace."""
    return (f"reset <1.30.0>\nset <1.30.0> label {label}\nset <1.30.0> {flag} true\n{before}"
            f"send <1.30.0> <2.31.0> {value}\n")


# By what waits: the event that is due, and the acts.
WAYS = (
    ("another value with the same count before a reset", FAR, TRACERS + sent(5) + sent()),
    ("two messages that are alike", FAR, TRACERS + sent() + sent()),
    ("the message behind ten others", FAR, TRACERS + 10 * sent(5) + sent() + 2 * sent(5)),
    ("another value", FAR, TRACERS + sent(5)),
    ("another value behind eleven others", FAR, TRACERS + 11 * sent(5, before="print <1.30.0> 0\n") + sent(5)),
    ("another label", FAR, TRACERS + sent(label=18)),
    ("another prev", FAR.replace("{0,1}", "{1,2}"), TRACERS + sent(before="print <1.30.0> 0\n")),
    ("another flag", FAR, TRACERS + sent(flag="print")),
    ("a message of which only sender and count are right", FAR, TRACERS + sent(5, 18, "print")),
    ("two messages of that sender and count", FAR, TRACERS + sent(5) + sent(label=18)),
    ("the message without the token that a reset took", FAR, TRACERS + sent(5) + sent() + RECEIVER_RESET),
    ("the same before another value", FAR, TRACERS + sent() + RECEIVER_RESET + sent(5)),
    ("nothing", FAR, TRACERS),
    ("a later message", FAR, TRACERS + sent(before="print <1.30.0> 0\n")),
    ("a message that was sent without a token", FAR, f"{TRACERS}send <1.30.0> <2.31.0> 7\n"),
    ("the message where there is no tracer", FAR, FAR_UNTRACED + sent()),
)


def marked(said):
    """The places of the messages that are marked as due."""
    return [int(place) for place in re.findall(r"    place (\d+): .*: this one is due\n", said)]


def explained(program, text):
    return program.run(("explain",), text.encode()).output.decode()


def queue_of(program, event, acts):
    """The words about these acts, which leave this event; and the places from which `check` accepts its receive."""
    text = f"seqtrace 2\nprocess <1.30.0>\nprocess <2.31.0>\n{event}\nacts\n{acts}"
    said = explained(program, text)
    count = int(re.search(r"  messages in its queue (\d+)\n", said)[1])
    receives = [f"{text}receive <2.31.0> place {place}\n" for place in range(count)]
    accepted = [place for place, it in enumerate(receives) if program.run(("check",), it.encode()).status == 0]
    return said, accepted, receives


def dues(program):
    """Just those messages are marked as due whose receive `check` accepts, at the end of the acts and below an act that takes
    another."""
    for name, event, acts in WAYS:
        said, accepted, receives = queue_of(program, event, acts)
        yield Check(f"explain: waiting is {name}: what check accepts is due",
                    None if marked(said) == accepted else f"check accepts {accepted}\n{said}")
        others = [explained(program, it) for it in receives]
        wrong = [it for it in others if it.startswith("no: act ") and marked(it) != accepted]
        yield Check(f"explain: waiting is {name}: below another receive", f"{accepted} are due\n{wrong[0]}" if wrong else None)


# ---- random runs

PIDS = ((1, 30), (1, 31), (2, 32))
RUNS, MOST_ACTS, MOST_FURTHER = 300, 40, 6


def random_act(rng):
    """An act, as a list of words."""
    pid, other, value = model.show(rng.choice(PIDS)), model.show(rng.choice(PIDS)), str(rng.randrange(2))
    return rng.choice((
        ["send", pid, other, value], ["send", pid, other, value], ["send", pid, other, value], ["print", pid, value],
        ["receive", pid, "first"], ["receive", pid, "place", value], ["set", pid, "label", value],
        ["set", pid, rng.choice(("send", "receive", "print")), rng.choice(("true", "true", "false"))],
        ["set", pid, "receive", "true"], ["clear", pid], ["reset", pid] if rng.random() < 0.3 else ["look", pid],
        ["tracer", pid, rng.choice(("true", "true", "true", "false"))]))


def altered(rng, event):
    """The event, or one that differs from it in a part."""
    name = rng.choice(("label", "value", "prev", "this", None, None, None))
    if name is None:
        return event
    changed = model.replace(event, **{name: max(0, getattr(event, name) + rng.choice((-1, 1)))})
    return changed if changed.prev < changed.this else event


def random_left(rng):
    """The acts of a run, its streams with one more event, and the state at its end."""
    acts = [["tracer", model.show(pid), "true"] for pid in PIDS[1:]] + [random_act(rng) for _ in range(rng.randrange(MOST_ACTS))]
    world, streams = model.World(PIDS), {pid: [] for pid in PIDS}
    for act in acts:
        if report := world.step(act)[0]:
            streams[report.actor()].append(report)
    further = copy.deepcopy(world)
    for _ in range(MOST_FURTHER):
        if report := further.step(random_act(rng))[0]:
            event = altered(rng, report)
            streams[event.actor()].append(event)
            return acts, streams, event, world
    return random_left(rng)


def told(world, act):
    """The report that an act would make now."""
    return copy.deepcopy(world).step(act)[0]


def single_acts(world, event):
    """The acts of the event's process that could report an event of its kind."""
    pid = event.actor()
    if event.kind == "receive":
        return [["receive", model.show(pid), "place", str(place)] for place in range(len(world.of[pid].queue))]
    words = [event.kind, model.show(pid)] + ([model.show(event.to)] if event.to else [])
    return [[*words, str(event.value)]]


def reporting_acts(world, event):
    return [act for act in single_acts(world, event) if told(world, act) == event]


def false_marks(world, event, said):
    """The message that is marked falsely as due, or None. After the tenth place the first message is shown."""
    due = [int(act[-1]) for act in reporting_acts(world, event)] if event.kind == "receive" else []
    shown = [place for place in due if place < 10 or place == due[0]]
    return None if marked(said) == shown else f"due are {due}"


def other_act(world, event):
    """An act of the event's process that would report something else, None if none would."""
    pid = model.show(event.actor())
    acts = [["receive", pid, "place", str(place)] for place in range(len(world.of[event.actor()].queue))]
    return next((act for act in (*acts, ["print", pid, "9"]) if told(world, act) not in (None, event)), None)


def random_dues(program):
    """Random runs with an event left: what is due is what the machine's state says, also below an act that reports something
    else."""
    rng, wrong, refused = random.Random(7), None, 0
    for _ in range(RUNS):
        acts, streams, event, world = random_left(rng)
        text = "".join(f"{line}\n" for line in model.write(streams, acts))
        said = explained(program, text)
        if problem := false_marks(world, event, said):
            wrong = wrong or f"{problem}\n{text}{said}"
        if other := other_act(world, event):
            refused, text = refused + 1, text + " ".join(other) + "\n"
            said = explained(program, text)
            problem = false_marks(world, event, said) if said.startswith(f"no: act {len(acts)}, ") else "another act is refused"
            wrong = wrong or problem and f"{problem}\n{text}{said}"
    yield Check(f"explain: {RUNS} random runs with an event left", wrong, f"{refused} times another act reports something else")
