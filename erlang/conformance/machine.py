"""The slow models of the machine and of a standard node, with the replies of their calls.

A standard node is the machine with all `RULES` exchanged (docs/MACHINE.md has a row for each);
besides, its processes spawn and its counters wrap. `BROKEN` are rules broken on purpose: no node
does these, so a comparison must find them.
"""

import sys
from dataclasses import dataclass, replace
from functools import reduce
from pathlib import Path
from typing import Callable

sys.path.insert(0, str(Path(__file__).resolve().parents[2] / "tests/models"))
import slow_seqaudit as model  # noqa: E402 (it lies in the folder just named)


@dataclass(frozen=True)
class Rule:
    """The rules that replace those of the machine.

    `act` gives the act that is done in place of one. If the rule applies to an act that was done,
    `state` mends the world after it, and `reply` is its reply. It shows on so many nodes.
    """
    says: str
    applies: Callable = lambda step: False
    state: Callable | None = None
    reply: Callable | None = None
    act: Callable = lambda world, act: act
    nodes: int = 1


#: A counter's values, and those that a serial shows of it, which a node prints with a sign.
COUNTER, SERIAL = 2**64, 2**60
SPAWNS = ("spawn", "request")


def signed(count):
    return count if count < SERIAL // 2 else count - SERIAL


def with_counts(token, change):
    return replace(token, prev=change(token.prev), this=change(token.this))


class World(model.World):
    """The machine's processes, with what only a node does: processes spawn, and counters wrap."""

    def step(self, act, number=0):
        """Does the act, and returns its reports and the number of the send that it took."""
        if act[0] in SPAWNS:
            parent, child = map(model.parse_pid, act[1:])
            return self.spawn(parent, child, act[0] == "spawn"), None
        report, sent = super().step(act, number)
        one = self.of[model.parse_pid(act[1])]
        if act[0] == "restore":
            one.token = with_counts(one.token, lambda count: count % SERIAL)
        return [report] if report else [], sent

    def is_possible(self, act):
        """Whether the processes that the act names are there, and one that it spawns isn't."""
        there = [model.parse_pid(word) in self.of for word in act if word.startswith("<")]
        return there == [True, False] if act[0] in SPAWNS else all(there)

    def stamp(self, actor, kind, to, value):
        one = self.of[actor]
        if not one.token:
            return None
        one.clock = (one.clock + 1) % COUNTER
        one.token = replace(one.token, prev=one.last, this=one.clock % SERIAL, sender=actor)
        return self.report(one, kind, one.token, to, value)

    def spawn(self, parent, child, waits):
        """The request and the reply to it, each sent and received.

        The reply that `spawn` waits for gives no token.
        """
        one, new = self.of[parent], model.Process(traced=self.of[parent].traced)
        self.of[child] = new
        if not one.token:
            return []
        reports = [self.stamp(parent, "send", child, "spawn_request"),
                   self.take(child, one.token, "spawn_request"),
                   self.stamp(child, "send", parent, "spawn_reply")]
        kept = one.token
        reports.append(self.take(parent, new.token, "spawn_reply"))
        if waits:
            one.clock = 16 * new.token.this + 15
            one.last, one.token = one.clock % SERIAL, kept
        return [report for report in reports if report]

    def take(self, pid, token, value):
        """Receives such a message."""
        one = self.of[pid]
        one.token, one.last, one.clock = token, token.this, max(one.clock, token.this)
        return self.report(one, "receive", token, pid, value)

    @staticmethod
    def report(one, kind, token, to, value):
        return model.World.report(one, kind, with_counts(token, signed), to, value)


@dataclass
class Step:
    """One act that was done: the processes before it, the world after it, and the send it took."""
    act: list
    before: dict
    world: World
    sent: list | None

    @property
    def actor(self):
        return model.parse_pid(self.act[1])

    @property
    def old(self):
        return self.before[self.actor]

    @property
    def new(self):
        return self.world.of[self.actor]


# A standard node

def sets_without_token(step):
    return step.act[0] == "set" and not step.old.token


def restores(step):
    return step.act[0] == "restore"


def keep_last(step):
    step.new.last = step.old.last


def begin_with_last(step):
    step.new.token = replace(step.new.token, prev=step.new.last)


def default_component(step):
    return "old 0" if step.act[2] == "label" else "old false"


def take_counts(step):
    step.new.last, step.new.clock = step.new.token.prev, step.new.token.this


def keep_sender(step):
    sender = step.old.token.sender if step.old.token else step.actor
    step.new.token = replace(step.new.token, sender=sender)


RULES = {
    "set-last": Rule("a component set on no token leaves last as it was", sets_without_token,
                     keep_last),
    "set-serial": Rule("a fresh token's serial is {last,0}", sets_without_token, begin_with_last),
    "set-reply": Rule("a component set on no token replies the default", sets_without_token,
                      reply=default_component),
    "restore-counts": Rule("a restored token sets clock and last from its serial", restores,
                           take_counts),
    "restore-from": Rule("a restored token has the current one's from, or its process", restores,
                         keep_sender),
    "restore-reply": Rule("a restored token replies ok", restores, reply=lambda step: "ok"),
}


# Nobody

def receives_token(step):
    return step.act[0] == "receive" and step.sent is not None and step.new.token is not None


def receives_plainly(step):
    return step.act[0] == "receive" and step.sent is not None and step.new.token is None


def prints_quietly(step):
    return step.act[0] == "print" and step.old.token and not step.old.token.flags[2]


def keep_clock(step):
    step.new.clock = step.old.clock


def keep_token(step):
    step.new.token = step.old.token


def drop_token(step):
    step.new.token = None


def take_back(step):
    step.new.token, step.new.clock = step.old.token, step.old.clock


def forget_counts(step):
    step.new.last = step.new.clock = 0


def turn_off(step):
    for one in step.world.on_node_of(step.actor):
        one.traced = False


def keep_queues(step):
    for pid, one in step.world.of.items():
        one.queue = step.before[pid].queue


def forget_everywhere(step):
    for one in step.world.of.values():
        one.token, one.clock, one.last = None, 0, 0


def trace_everywhere(step):
    for one in step.world.of.values():
        one.traced = step.new.traced


def spawns_with_token(step):
    return step.act[0] == "spawn" and step.old.token is not None


def answer_as_message(step):
    child = step.world.of[model.parse_pid(step.act[2])]
    step.new.last, step.new.clock = child.token.this, max(step.old.clock + 1, child.token.this)


def take_answer_token(step):
    step.new.token = step.world.of[model.parse_pid(step.act[2])].token


def hide_upper_bits(step):
    step.new.clock %= SERIAL


def compare_signed(step):
    counts = (step.old.clock, step.new.token.this)
    step.new.clock = max(counts, key=lambda count: signed(count % SERIAL))


def take_newest(world, act):
    if act[0] != "receive":
        return act
    queue = world.of[model.parse_pid(act[1])].queue
    places = [k for k, (sender, value, _, _) in enumerate(queue)
              if model.is_wanted(act[2:], k, sender, value)]
    return [*act[:2], "place", str(places[-1])] if places else act


def print_at_any_label(_, act):
    return ["print", act[1], act[3]] if act[0] == "printat" else act


def is_act(word):
    return lambda step: step.act[0] == word


BROKEN = {
    "receive-last": Rule("a receive leaves last", receives_token, keep_last),
    "receive-clock": Rule("a receive leaves the clock", receives_token, keep_clock),
    "plain-receive": Rule("a message without a token leaves the token", receives_plainly,
                          keep_token),
    "newest": Rule("a receive takes the newest message that matches", act=take_newest),
    "no-receive": Rule("a receive that matches nothing takes the token away",
                       lambda step: step.act[0] == "receive" and step.sent is None, drop_token),
    "quiet-print": Rule("a print without its flag stamps nothing", prints_quietly, take_back),
    "print-label": Rule("a print at a label looks at no label", act=print_at_any_label),
    "clear": Rule("a token that is cleared takes the counts with it", is_act("clear"),
                  forget_counts),
    "look": Rule("a look takes the token away", is_act("look"), drop_token),
    "reset-tracer": Rule("a reset takes the tracer off", is_act("reset"), turn_off),
    "reset-queues": Rule("a reset leaves the tokens of queued messages", is_act("reset"),
                         keep_queues),
    "reset-nodes": Rule("a reset reaches the other node", is_act("reset"), forget_everywhere,
                        nodes=2),
    "tracer-nodes": Rule("a tracer reaches the other node", is_act("tracer"), trace_everywhere,
                         nodes=2),
    "answer-counts": Rule("the answer that spawn waits for moves the counts as a message does",
                          spawns_with_token, answer_as_message),
    "answer-token": Rule("the answer that spawn waits for gives its token", spawns_with_token,
                         take_answer_token),
    "counter-bits": Rule("a counter has the bits that a serial shows", spawns_with_token,
                         hide_upper_bits),
    "signed-clock": Rule("a receive compares counts with their signs", receives_token,
                         compare_signed),
}


# Runs

@dataclass(frozen=True)
class Outcome:
    """The replies of a script's acts, and the lines of its streams as a bundle has them."""
    replies: list
    streams: list


def run(script, rules=(), broken=()):
    """The script's outcome with these rules exchanged, and the names of all rules that it used."""
    world, streams = World(script.pids), {}
    replies, used = [], set()
    exchanged = [RULES[name] for name in RULES if name in rules] + [BROKEN[name] for name in broken]
    for number, act in enumerate(script.acts):
        if not world.is_possible(act):
            replies.append("nobody")
            continue
        step, reports = do_act(world, script.acts, number, exchanged)
        used |= {name for name, rule in RULES.items() if rule.applies(step)}
        replies.append(reply(step, exchanged))
        for report in reports:
            streams.setdefault(report.actor(), []).append(report)
    by_pid = {pid: streams.get(pid, []) for pid in sorted(world.of)}
    return Outcome(replies, list(model.write(by_pid, []))[1:-1]), used


def run_node(script, broken=()):
    """The script's outcome on a standard node."""
    return run(script, RULES, broken)[0]


def do_act(world, acts, number, exchanged):
    before = {pid: replace(one, queue=list(one.queue)) for pid, one in world.of.items()}
    act = reduce(lambda done, rule: rule.act(world, done), exchanged, acts[number])
    reports, sent = world.step(act, number)
    step = Step(acts[number], before, world, None if sent is None else acts[sent])
    for rule in exchanged:
        if rule.state and rule.applies(step):
            rule.state(step)
    return step, reports


def reply(step, exchanged):
    for rule in exchanged:
        if rule.reply and rule.applies(step):
            return rule.reply(step)
    match step.act:
        case ["receive", *_]:
            return "mail {1} {3}".format(*step.sent) if step.sent else "nothing"
        case ["set", _, component, _]:
            return f"old {component_words(step.old.token, component)}"
        case ["clear" | "restore", *_]:
            return f"previous {token_words(step.old.token)}"
        case ["look", _]:
            return f"current {token_words(step.old.token)}"
        case ["tracer", *_]:
            return f"was {truth(step.old.traced)}"
    return "done"


def component_words(token, component):
    if not token:
        return "none"
    if component == "label":
        return token.label
    return truth(token.flags[("send", "receive", "print").index(component)])


def token_words(token):
    if not token:
        return "none"
    return " ".join([str(token.label), *map(truth, token.flags), str(signed(token.prev)),
                     str(signed(token.this)), model.show(token.sender)])


def truth(value):
    return str(value).lower()
