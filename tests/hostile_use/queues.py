"""Long queues, and acts on a node of many processes. A certificate comes from a program that isn't trusted, and can queue a
million messages. So can streams, for the auditor: by receives whose serials fall, and by a server that calls others while
its mailbox is full."""

from .program import Answer, Check

SMALL, GREAT = 10_000, 1_000_000
# The seconds of the processor that this many messages may take: a message is found in time that grows as the logarithm of its
# queue's length.
BOUND = {SMALL: 1, GREAT: 10}
# The most memory that a command takes for a message, in bytes, and `drive` for one that nobody takes: it keeps the queue
# beside the log of both acts. Beside that a program takes some megabytes for any input.
BYTES, BYTES_LEFT = 400, 550
LEAST_MEGABYTES = 20

# The messages that wait at a server, and the calls that it makes before it takes them.
WAITING, CALLS, BACKLOG_BOUND = 199_000, 149_000, 8

# Acts on a node with as many processes as the reader takes, and the seconds of the processor that they may take.
PROCESSES, ACTS_ON_NODE, NODE_BOUND = 1_024, 3_200_000, 3


def sends(count):
    """One process sends itself the values 0, 1, .."""
    yield b"seqtrace 1\nprocess <0.0.0>\nacts\n"
    yield from (b"send <0.0.0> <0.0.0> %d\n" % value for value in range(count))


def same(act):
    return lambda count: (act for _ in range(count))


def numbered(act, numbers):
    return lambda count: (act % number for number in numbers(count))


def falling(count):
    return reversed(range(count))


def middle(count):
    return (left // 2 for left in range(count, 0, -1))


NONE_TAKEN = "receives from a sender that sent nothing"
# Acts on the queue, as many as it has messages.
WANTS = {
    "resets": same(b"reset <0.0.0>\n"),
    "receives of the first": same(b"receive <0.0.0> first\n"),
    "receives by place from the middle": numbered(b"receive <0.0.0> place %d\n", middle),
    "receives by the last place": numbered(b"receive <0.0.0> place %d\n", falling),
    "receives by value, the first first": numbered(b"receive <0.0.0> value %d\n", range),
    "receives by value, the last first": numbered(b"receive <0.0.0> value %d\n", falling),
    "receives by sender": same(b"receive <0.0.0> from <0.0.0>\n"),
    NONE_TAKEN: same(b"receive <0.0.0> from <0.1.0>\n"),
    "receives by sender and value, the first first": numbered(b"receive <0.0.0> both <0.0.0> %d\n", range),
    "receives by sender and value, the last first": numbered(b"receive <0.0.0> both <0.0.0> %d\n", falling),
}


def timed(program, name, words, pieces, is_right, bound, count, bytes_each=BYTES):
    """The check of one input with this many messages: what the program writes, in time and memory."""
    got, taken, processor, megabytes = program.measure(words, pieces, 6 * bound)
    most = LEAST_MEGABYTES + bytes_each * count // 1_000_000
    if got.status == -9:
        return Check(name, f"no output in {6 * bound} s of the processor")
    if not is_right(got):
        return Check(name, f"a wrong output: {got}")
    if processor >= bound:
        return Check(name, f"{processor:.2f} s of the processor, and less than {bound} s is promised")
    if megabytes >= most:
        return Check(name, f"a peak of {megabytes} MB, and less than {most} MB is promised")
    return Check(name, note=f"{taken:.2f} s, {processor:.2f} s of the processor, peak {megabytes} MB")


def waited(program, command, kind, count):
    """Waiting messages, and then as many acts on their queue."""

    def pieces():
        yield from sends(count)
        yield from WANTS[kind](count)

    def is_right(got):
        return got == Answer(0, b"yes\n" if command == "check" else b"".join(pieces()))

    name = f"queues: {count:,} sends to one process, then as many {kind}, by {command}"
    bytes_each = BYTES_LEFT if (command, kind) == ("drive", NONE_TAKEN) else BYTES
    yield timed(program, name, (command,), pieces(), is_right, BOUND[count], count, bytes_each)


def on_node(program, act):
    """Acts on a node, each after another process of it has acted."""
    turn = [b"clear <0.%d.0>\n" % pid + act for pid in range(PROCESSES)]
    times = ACTS_ON_NODE // 2 // PROCESSES
    listed = b"".join(b"process <0.%d.0>\n" % pid for pid in range(PROCESSES))
    given = b"seqtrace 1\n" + listed + b"acts\n" + b"".join(turn) * times
    name = f"queues: {times * PROCESSES:,} times {act.decode().strip()} on a node of {PROCESSES:,} processes"
    yield timed(program, name, ("check",), [given], lambda got: got == Answer(0, b"yes\n"), NODE_BOUND, GREAT)


def audited(program, count):
    """`audit` of receives whose serials fall, so that each takes the last message that waits."""

    def pieces():
        yield b"seqtrace 1\nprocess <0.0.0>\nprocess <0.1.0>\n"
        yield from (b"{seq_trace,0,{'receive',{0,%d},<0.0.0>,<0.1.0>,0}}\n" % this for this in range(count, 0, -1))

    def fits(got):
        last = b"receive <0.1.0> place %d\n"
        return got.status == 0 and got.output.endswith(last % 1 + last % 0)

    name = f"queues: {count:,} receives with falling serials audited"
    yield timed(program, name, ("audit",), pieces(), fits, BOUND[count], count)


class Reporter:
    """A process that reports all that it does."""

    def __init__(self, number):
        self.pid, self.clock, self.last, self.lines = b"<0.%d.0>" % number, 0, 0, []

    def report(self, kind, serial, sender, to, value):
        self.lines.append(b"{seq_trace,1,{%s,{%d,%d},%s,%s,%d}}\n" % (kind, *serial, sender.pid, to.pid, value))

    def send(self, to, value):
        self.clock += 1
        serial = self.last, self.clock
        self.report(b"send", serial, self, to, value)
        return serial

    def receive(self, sender, serial, value):
        self.last = serial[1]
        self.clock = max(self.clock, self.last)
        self.report(b"'receive'", serial, sender, self, value)


def backlog(waiting, calls):
    """The streams of a server that makes calls while messages wait."""
    server, other, client = map(Reporter, range(3))
    serials = [client.send(server, value) for value in range(waiting)]
    for value in range(calls):
        other.receive(server, server.send(other, value), value)
        server.receive(other, other.send(server, waiting + value), waiting + value)
    for value, serial in enumerate(serials):
        server.receive(client, serial, value)
    yield b"seqtrace 1\n"
    for process in (server, other, client):
        yield b"process %s\n" % process.pid
        yield from process.lines


def served(program):
    """`audit` of such a server: the trace fits, and the last act takes the last message that waits."""
    given = b"".join(backlog(WAITING, CALLS))

    def fits(got):
        return got.status == 0 and got.output.startswith(given) and got.output.endswith(b"receive <0.0.0> place 0\n")

    name = f"queues: a server makes {CALLS:,} calls while {WAITING:,} messages wait, audited"
    yield timed(program, name, ("audit",), [given], fits, BACKLOG_BOUND, GREAT)


def charted(program, count):
    """`chart` of prints whose cause isn't among the many receives before them."""

    def pieces():
        yield b"seqtrace 1\nprocess <0.0.0>\nprocess <0.1.0>\n"
        yield from (b"{seq_trace,0,{'receive',{0,%d},<0.0.0>,<0.1.0>,0}}\n" % this for this in range(2, count + 2))
        yield from (b"{seq_trace,0,{print,{1,%d},<0.1.0>,[],0}}\n" % this for this in range(count + 2, 2 * count + 2))

    def is_whole(got):
        return got.status == 0 and got.output.count(b" start\n") == count

    name = f"queues: {count:,} prints without a cause after as many receives in a chart"
    yield timed(program, name, ("chart", "--label", "0"), pieces(), is_whole, BOUND[GREAT], 2 * count)
