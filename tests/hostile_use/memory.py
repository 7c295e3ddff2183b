"""Memory that runs out: each request for memory, and for a thread, is refused in turn."""

from . import model, shim
from .inputs import FOUR_SCRIPTS, INPUTS
from .program import FAULT_MEMORY, Answer, Check, expect

FAULT_THREAD = Answer(4, b"fault thread\n")
SCRIPTS = 4  # Of `FOUR_SCRIPTS`, each of which has a thread.
LONG_SCRIPT = 100_000  # That many receives that walk a queue as long take a minute (docs/HOSTILE.md).
STOPPED_WITHIN = 10  # Seconds of the processor, of which reading the script takes less than one.
MOST_REQUESTS = 10_000  # Far more than the short inputs need: a program that never ends is noticed.


def faults(words):
    return [FAULT_MEMORY, FAULT_THREAD] if words[0] == "drive" else [FAULT_MEMORY]


def each_refused(program, library, name, rest):
    """The Nth request fails, or the Nth and all later ones, for N = 1, 2, .. until none of a run fails."""
    words, given = INPUTS[name]
    which = "and all later ones" if rest else "alone"
    memory = right = 0
    for n in range(1, MOST_REQUESTS):
        got, came = shim.run(program, library, words, given, refuse_request=n, refuse_rest=int(rest))
        called = f"memory: {name}: request {n} {which}"
        is_right = model.is_right(words, given, got)
        if not came:
            yield Check(called, None if is_right else f"no request was refused, and the output is wrong\ngot {got}")
            break
        memory, right = memory + (got in faults(words)), right + is_right
        yield Check(called, None if got in faults(words) or is_right else f"expected a fault or the output\ngot {got}")
    else:
        yield Check(f"memory: {name}: {which}: an end", f"request {MOST_REQUESTS - 1} was refused too")
    yield Check(f"memory: {name}: {which}: some request was refused", None if memory else "no run wrote a fault",
                note=f"{memory} refused runs wrote a fault, {right} the right output")


def each_thread_refused(program, library, rest):
    """The Nth thread is refused, or the Nth and all later ones: a fault for a script's, and the join does without one."""
    which = "and all later ones" if rest else "alone"
    for n in range(1, MOST_REQUESTS):
        got, came = shim.run(program, library, ("drive",), FOUR_SCRIPTS, refuse_thread=n, refuse_rest=int(rest))
        called = f"memory: four scripts driven: thread {n} {which}"
        if n <= SCRIPTS:
            yield Check(called, None if came and got == FAULT_THREAD else f"expected {FAULT_THREAD}\ngot {got}")
            continue
        is_right = model.is_right(("drive",), FOUR_SCRIPTS, got)
        yield Check(called, None if is_right else f"each script has its thread, and the output is wrong\ngot {got}")
        if not came:
            break


def others_are_stopped(program, library):
    """The second script's thread is refused while the first has work for a minute: it is told to stop at its next act,
    so the fault doesn't wait for it."""
    acts = b"send <0.0.0> <0.0.0> 1\n" * LONG_SCRIPT + b"receive <0.0.0> value 2\n" * LONG_SCRIPT
    text = b"seqtrace 1\nprocess <0.0.0>\nprocess <0.1.0>\nacts\n" + acts
    got, came = shim.run(program, library, ("drive",), text, seconds=STOPPED_WITHIN, refuse_thread=2)
    yield Check(f"memory: a script of a minute beside a thread that is refused ends within {STOPPED_WITHIN} s of the processor",
                None if came and got == FAULT_THREAD else f"expected {FAULT_THREAD}\ngot {got}")


def no_room_for_threads(program):
    """Without a library: 1,024 scripts, whose threads' stacks of 2 MB don't fit so little address space."""
    lines = [b"process <0.%d.0>\n" % number for number in range(1_024)]
    text = b"seqtrace 1\n" + b"".join(lines) + b"acts\n" + b"".join(lines).replace(b"process", b"look")
    for megabytes in (64, 128, 256, 512, 1_024):
        got = program.run(("drive",), text, before=("prlimit", f"--as={megabytes << 20}"))
        yield expect(f"memory: 1,024 scripts driven within {megabytes} MB of address space", FAULT_THREAD, got, text)
    got = program.run(("drive",), text)
    yield expect("memory: 1,024 scripts driven with room for their threads", Answer(0, text), got, text)


def address_space(program):
    """A coarser check without a library: `check` of 100,000 acts within less and less address space."""
    text = b"seqtrace 1\nprocess <0.0.0>\nacts\n" + b"send <0.0.0> <0.0.0> 1\n" * 100_000
    right, faulted, answered = Answer(0, b"yes\n"), 0, 0
    for megabytes in range(2, 65, 2):
        before = ("prlimit", f"--as={megabytes << 20}")
        if program.run(("check",), before=before) != Answer(2, b"fault truncated\n"):
            continue  # There is no room to load the program.
        got = program.run(("check",), text, before=before)
        faulted, answered = faulted + (got == FAULT_MEMORY), answered + (got == right)
        yield Check(f"memory: check within {megabytes} MB of address space",
                    None if got in (FAULT_MEMORY, right) else f"expected {FAULT_MEMORY} or {right}\ngot {got}")
    yield Check("memory: some address space is too small and some is ample",
                None if faulted and answered else f"{faulted} times fault memory, {answered} times yes")
