#!/usr/bin/env python3
"""Times the commands of programs on the bundles that bench/run made: measure.py ROUNDS FOLDER PROVED TUNED [PLAIN].

The programs run in turn: the proved one, a tuned one in plain Rust, and the proved one's own source in plain Rust, if
that is built. A table for each command is printed at the end, in markdown. A cell has the median in seconds, that
divided by the tuned program's, and the peak of memory in megabytes. The scheduler decides which run `drive` makes, so
its cells have the events of the last one too. Before the programs are timed, what they write has to be the same."""

import statistics
import sys

sys.dont_write_bytecode = True

from one_run import run_once  # noqa: E402
from same import count_events, difference  # noqa: E402
from cases import COMMANDS, TRACES, words_of  # noqa: E402

PROVED, TUNED, PLAIN = "proved", "tuned", "the same source in plain Rust"


def measured(words, source, target):
    """The seconds and the peak of memory, in megabytes."""
    status, seconds, _, peak = run_once(words, source, target)
    if status:
        sys.exit(f"{' '.join(words)} < {source}: status {status}")
    return seconds, peak >> 20


def compare(programs, words, source, written):
    """Runs each program once, and stops if they don't write the same."""
    for name, program in programs.items():
        measured([program, *words], source, written[name])
    if differs := difference(programs[PROVED], words, source, list(written.values())):
        sys.exit(f"{' '.join(words)} < {source}: {differs}")


def timed(programs, words, source, folder, rounds):
    """For each program the median, the greatest peak, and how many events its last run of threads reported."""
    written = {name: f"{folder}/{place}.written" for place, name in enumerate(programs)}
    compare(programs, words, source, written)
    runs = {name: [] for name in programs}
    for _ in range(rounds):
        for name, program in programs.items():
            runs[name].append(measured([program, *words], source, written[name]))
    return {name: (statistics.median(seconds for seconds, _ in done), max(peak for _, peak in done),
                   count_events(written[name]) if words == ["drive"] else None)
            for name, done in runs.items()}


def ratio_of(name, results):
    """How many times as long as the tuned program the program took."""
    return f"{results[name][0] / results[TUNED][0]:.2f}"


def cell(name, results):
    """The words of a cell about the program."""
    seconds, peak, events = results[name]
    ratio = "" if name == TUNED else f" = {ratio_of(name, results)}"
    said = f"{seconds:.2f} s{ratio}, {peak} MB"
    return said if events is None else f"{said}, {events:,} events"


def results_of(command, programs, folder, rounds):
    """The results of the programs for each trace on which the command is timed, by its title."""
    found = {}
    for name, (title, commands) in TRACES.items():
        if command in commands:
            source = f"{folder}/{name}.{COMMANDS[command]}"
            found[title] = timed(programs, words_of(command, source), source, folder, rounds)
            cells = "; ".join(cell(column, found[title]) for column in programs)
            print(f"{command}, {title}: {cells}", file=sys.stderr)
    return found


def legend(rounds, command, results):
    """The words of a cell, for instance this command's first."""
    seconds, peak, _ = results[PROVED]
    said = f"`{command}` took {seconds:.2f} s, {ratio_of(PROVED, results)} times as long as the tuned program"
    return f"Each cell has the median of {rounds} runs in turn. The first one says that {said}, with a peak of {peak} MB.\n"


def ratio_table(results):
    """The lines of one table of all commands and traces: the proved program's time by the tuned one's."""
    yield f"| proved / tuned | {' | '.join(f'`{command}`' for command in results)} |"
    yield "|---|" + "---|" * len(results)
    for title, _ in TRACES.values():
        ratios = (ratio_of(PROVED, found[title]) if title in found else "" for found in results.values())
        yield f"| {title} | {' | '.join(ratios)} |"


def table(command, columns, results):
    """The lines of the command's table."""
    yield f"| `{command}` | {' | '.join(columns)} |"
    yield "|---|" + "---|" * len(columns)
    for title, found in results.items():
        yield f"| {title} | " + " | ".join(cell(column, found) for column in columns) + " |"


def main():
    rounds, folder, *given = sys.argv[1:]
    programs = dict(zip((PROVED, TUNED, PLAIN), given))
    columns = [name for name in (PROVED, PLAIN, TUNED) if name in programs]
    results = {command: results_of(command, programs, folder, int(rounds)) for command in COMMANDS}
    first = next(iter(COMMANDS))
    print(legend(rounds, first, next(iter(results[first].values()))))
    print(*ratio_table(results), "", sep="\n")
    for command, found in results.items():
        print(*table(command, columns, found), "", sep="\n")


main()
