"""One run of a program, from a file into a file: its status, its times and its peak of memory.

The system counts the memory of whoever starts a program into that program's peak. So a run is started by a small process
of its own, this file as a script, and what that takes is told from what the program takes:

    one_run.py SECONDS INPUT OUTPUT PROGRAM WORD ..     prints the status, the seconds, those of the processor, the bytes

The program has no environment, and writes errors into the output too. After this many seconds of the processor it is killed,
and so it is if it hangs. The script imports little, so that it stays small."""

import _thread
import os
import resource
import sys
import time

# How often the memory of a program is looked up that doesn't take more than the starter.
LOOK_SECONDS = 0.002
# Bounds are of processor time, which a busy machine changes little. The clock runs on until a program may be taken to hang.
CLOCK_FOR_PROCESSOR = 30


def limit_processor(process, seconds):
    """The system kills the process once it has used the processor for so long."""
    whole = -int(-seconds // 1)
    resource.prlimit(process, resource.RLIMIT_CPU, (whole, whole))


def peak_of(process):
    """The greatest memory that a process took since it began its program, in bytes; 0 if it has ended."""
    try:
        with open(f"/proc/{process}/status", "rb") as status:
            return next((int(line.split()[1]) * 1024 for line in status if line.startswith(b"VmHWM:")), 0)
    except OSError:
        return 0


def watch(child, until, ended, seen):
    """Looks up the peak as long as the child runs, and kills it when it hangs."""
    while not ended:
        seen[0] = max(seen[0], peak_of(child))
        if time.monotonic() > until and not ended:
            os.kill(child, 9)
            return
        time.sleep(LOOK_SECONDS)


def start(seconds, given, written, words):
    """Runs the program; the four numbers."""
    streams = [(os.POSIX_SPAWN_OPEN, 0, given, os.O_RDONLY, 0),
               (os.POSIX_SPAWN_OPEN, 1, written, os.O_WRONLY | os.O_CREAT | os.O_TRUNC, 0o644),
               (os.POSIX_SPAWN_DUP2, 1, 2)]
    ended = []
    begin = time.perf_counter()
    child = os.posix_spawn(words[0], words, {}, file_actions=streams)
    limit_processor(child, seconds)
    seen = [peak_of(child)]
    _thread.start_new_thread(watch, (child, time.monotonic() + CLOCK_FOR_PROCESSOR * seconds, ended, seen))
    _, status, used = os.wait4(child, 0)
    taken = time.perf_counter() - begin
    ended.append(True)
    peak = used.ru_maxrss * 1024
    return (os.waitstatus_to_exitcode(status), taken, used.ru_utime + used.ru_stime,
            peak if peak > peak_of("self") else seen[0])


def run_once(words, given, written, seconds=3600):
    """The status of the program, the seconds that it took, those of the processor, and the peak of memory in bytes. The
    peak of one that takes less than the starter may be higher by what it takes in its last moments."""
    import subprocess  # The starter doesn't need it.
    told = subprocess.run([sys.executable, "-I", "-S", "-B", __file__, str(seconds), given, written, *words],
                          stdout=subprocess.PIPE, check=True).stdout.split()
    return int(told[0]), float(told[1]), float(told[2]), int(told[3])


if __name__ == "__main__":
    print(*start(float(sys.argv[1]), sys.argv[2], sys.argv[3], sys.argv[4:]))
