#!/usr/bin/env python3
"""Runs a command on a terminal of its own, and presses Ctrl-C once a file is there.

    press_ctrl_c.py FILE SECONDS COMMAND .."""

import os
import pty
import select
import signal
import sys
import time

file, seconds, command = sys.argv[1], float(sys.argv[2]), sys.argv[3:]
child, terminal = pty.fork()
if child == 0:
    # A shell that runs the tests in the background may have had Ctrl-C ignored.
    signal.signal(signal.SIGINT, signal.SIG_DFL)
    os.execvp(command[0], command)
pressed, end = False, time.time() + seconds
while time.time() < end:
    if select.select([terminal], [], [], 0.1)[0]:
        try:
            piece = os.read(terminal, 65536)
        except OSError:
            break
        if not piece:
            break
        sys.stdout.buffer.write(piece)
    if not pressed and os.path.exists(file):
        os.write(terminal, b"\x03")
        pressed = True
else:
    os.kill(child, 9)
sys.stdout.flush()
sys.exit(os.waitstatus_to_exitcode(os.waitpid(child, 0)[1]) % 256)
