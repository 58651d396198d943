#!/usr/bin/env python3
"""Types lines for `cpgring shell` whose reads are interrupted: each line comes after the program was stopped and went on
while it waited for it. A read of a socket with a time limit then ends as interrupted, by Linux.
Usage: examples/interrupted.py PROGRAM"""

import pathlib
import signal
import socket
import struct
import subprocess
import sys
import time


def is_reading(shell):
    """Whether the program waits in a read of its standard input."""
    return pathlib.Path(f"/proc/{shell.pid}/syscall").read_text().startswith("0 0x0 ")


def interrupt(shell):
    """Stops the program in its read, and lets it go on."""
    while not is_reading(shell):
        time.sleep(0.01)
    shell.send_signal(signal.SIGSTOP)
    while "T (stopped)" not in pathlib.Path(f"/proc/{shell.pid}/status").read_text():
        time.sleep(0.01)
    shell.send_signal(signal.SIGCONT)


ours, theirs = socket.socketpair()
theirs.setsockopt(socket.SOL_SOCKET, socket.SO_RCVTIMEO, struct.pack("ll", 60, 0))
words = [sys.argv[1], "shell", "--nodes=1", "--wait=10000"]
with subprocess.Popen(words, stdin=theirs, stdout=subprocess.PIPE, text=True) as shell:
    theirs.close()
    for line in ("connect 1 40 0 0", "call 1 leave", "wait 1"):
        interrupt(shell)
        ours.sendall(line.encode() + b"\n")
        print(f"{line} -> {shell.stdout.readline()}", end="")
    interrupt(shell)
    ours.close()
    print("status", shell.wait())
