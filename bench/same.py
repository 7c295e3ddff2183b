"""Whether what programs write of one input is the same. Which run `drive` makes is the scheduler's choice, so of its
output it is asked whether it is a run of the same acts."""

import filecmp

from one_run import run_once


def scripts(path):
    """The acts of each process, in order."""
    found = {}
    with open(path, "rb") as lines:
        for line in lines:
            if line == b"acts\n":
                break
        for line in lines:
            found.setdefault(line.split(b" ", 2)[1].rstrip(), []).append(line)
    return found


def count_events(path):
    with open(path, "rb") as lines:
        return sum(line.startswith(b"{") for line in lines)


def difference(checker, words, source, written):
    """The fault of the programs' outputs for the source, in files, or None."""
    if words != ["drive"]:
        differs = any(not filecmp.cmp(written[0], path, shallow=False) for path in written[1:])
        return "the programs write different texts" if differs else None
    given = scripts(source)
    for path in written:
        if scripts(path) != given:
            return f"{path} has other acts than the scripts"
        if run_once([checker, "check"], path, f"{path}.checked")[0] != 0:
            return f"{checker} check says of {path} that it is no run"
    return None
