#!/usr/bin/env python3
"""Drives `cpgring shell` over two pipes: two sessions, and what each is told, line by line as it comes.
Usage: examples/drive.py PROGRAM"""

import subprocess
import sys


class Cluster:
    """A running cluster; its answers and what it tells of bad lines come by one pipe."""

    def __init__(self, program, *words):
        pipe = subprocess.PIPE
        self.shell = subprocess.Popen([program, "shell", *words], stdin=pipe, stdout=pipe, stderr=subprocess.STDOUT)

    def say(self, line):
        """Types a line, and returns the line that it prints."""
        self.shell.stdin.write(line.encode("ascii") + b"\n")
        self.shell.stdin.flush()
        return self.shell.stdout.readline().decode("ascii").rstrip("\n")

    def expect(self, line, wanted):
        """Types a line that has to print just this."""
        found = self.say(line)
        print(f"{line} -> {found}")
        if found != wanted:
            sys.exit(f"wanted was: {wanted}")

    def stop(self):
        """Ends the input, which stops the cluster, and returns the exit status."""
        self.shell.stdin.close()
        return self.shell.wait()


cluster = Cluster(sys.argv[1], "--nodes=2", "--wait=10000", "uid:7")
cluster.expect("connect 1 40 7 100", "session 1")
cluster.expect("connect 2 50 7 100", "session 2")
cluster.expect("call 1 join db", "admitted")
cluster.expect("wait 1", "event 1 verdict allowed default")
cluster.expect("wait 1", "event 1 change db members 1/40 left - joined 1/40:join")
cluster.expect("call 2 join db", "admitted")
cluster.expect("wait 1", "event 2 change db members 1/40,2/50 left - joined 2/50:join")
cluster.expect("jump", "cpgring: 41 BadCommand 8")
print("status", cluster.stop())
