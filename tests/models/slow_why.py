"""The output of `why`: a slow model of the hops of crates/node_hops and of the lines of crates/seqtool_commands."""

from collections import namedtuple

import slow_node
from slow_seqaudit import show

RUNS = "this holds in each run of a standard node without a reset that reports the trace"
PREMISES = {
    1: "(1) if in between, or before a beginning, its process took no token whose receive wasn't reported",
    2: "(2) if there it put no token back, and spawned no process",
    3: "(3) if there it made no token, and set no label",
    4: "(4) if each send of such a message was reported",
}
NO_ORDER = "no order of the events has each receive after its send"
BEGINS = "begins here"
MOVED = "its process took a token whose receive wasn't reported, put one back or spawned"
UNSENT = "its send wasn't reported"

# The hops that spaces show.
INDENT = 16

# The cause of an event: the kind of hop, the place that it names, and the premises that it rests on.
Hop = namedtuple("Hop", "kind place premises")


def sources(streams):
    """The place of each receive's send: alike messages are taken in order. None if no send is left."""
    return slow_node.sources({pid: [slow_node.Event(it.kind, it.label, it.prev, it.this, it.sender, it.to, it.value)
                                    for it in events] for pid, events in streams.items()})


def row_start(events, i):
    """Where the row of sends and prints with the prev of event i begins that goes up to it."""
    start = i
    while start > 0 and events[start - 1].kind != "receive" and events[start - 1].prev == events[i].prev:
        start -= 1
    return start


def hop_of_stamp(streams, pid, i):
    events = streams[pid]
    event, start = events[i], row_start(events, i)
    before = (pid, start - 1) if start else None
    if before and events[start - 1].kind == "receive" and events[start - 1].this == event.prev:
        is_same = events[start - 1].label == event.label
        return Hop("after", before, [1, 2, 3]) if is_same else Hop("other_label", before, [1, 2])
    return Hop("moved", before, []) if before or event.prev else Hop("begins", None, [1, 2])


def hop_of(streams, source, place):
    pid, i = place
    if streams[pid][i].kind != "receive":
        return hop_of_stamp(streams, pid, i)
    sent = source[place]
    return Hop("after", sent, [4]) if sent else Hop("unsent", None, [])


def leads_to(hop, across):
    """The place that the hop goes to, over a change of label only if asked to."""
    return hop.place if hop.kind == "after" or across and hop.kind == "other_label" else None


def line_of(streams, place):
    """The line of an event in the text: the header is line 1, and each process and each event takes one."""
    pid, i = place
    return 3 + i + sum(1 + len(streams[earlier]) for earlier in streams if earlier < pid)


def way(streams, source, place, most, across):
    nodes = []
    while place and len(nodes) < most:
        nodes.append((len(nodes), place))
        place = leads_to(hop_of(streams, source, place), across)
    return nodes


def tree(streams, source, place, most, across):
    """All events whose hops lead to the place, each below the one that its hop names, in the order of their places."""
    children = {}
    for pid, events in streams.items():
        for i in range(len(events)):
            children.setdefault(leads_to(hop_of(streams, source, (pid, i)), across), []).append((pid, i))
    nodes, waiting = [], [(0, place)]
    while waiting:
        depth, here = waiting.pop()
        if depth < most:
            nodes.append((depth, here))
            waiting += [(depth + 1, child) for child in reversed(children.get(here, []))]
    return nodes


def located(streams, place):
    return f"{show(place[0])} {place[1]}, line {line_of(streams, place)}"


def sentence(streams, place, hop):
    if hop.kind == "other_label":
        label, received = streams[place[0]][place[1]].label, streams[hop.place[0]][hop.place[1]].label
        words = (f"begins label {label} here, or set it on its token; it had last received {located(streams, hop.place)} "
                 f"of label {received}")
    elif hop.kind == "moved":
        words = (f"since {located(streams, hop.place)}, " if hop.place else "") + MOVED
    else:
        words = {"after": hop.place and f"after {located(streams, hop.place)}", "unsent": UNSENT, "begins": BEGINS}[hop.kind]
    return words + (f" ({', '.join(map(str, hop.premises))})" if hop.premises else "")


def text_line(streams, node, hop, is_tree):
    depth, place = node
    event = streams[place[0]][place[1]]
    front = f"{depth} {' ' * min(depth, INDENT)}" if is_tree else ""
    return (f"{front}{located(streams, place)}  {event.kind:8} {{{event.prev},{event.this}}} {event.value} "
            f"{sentence(streams, place, hop)}")


def why(streams, place, most, across, is_tree=False):
    """The lines of at most this many hops back, or of this many levels of what follows; none if the event isn't there."""
    if place is None or place[1] >= len(streams.get(place[0], [])):
        return None
    source = sources(streams)
    if slow_node.waits(streams, source):
        return [NO_ORDER]
    nodes = (tree if is_tree else way)(streams, source, place, most, across)
    hops = [hop_of(streams, source, here) for _, here in nodes]
    rests_on = sorted({premise for hop in hops for premise in hop.premises})
    lines = [text_line(streams, node, hop, is_tree) for node, hop in zip(nodes, hops)]
    return [*lines, RUNS, *(PREMISES[premise] for premise in rests_on)]
