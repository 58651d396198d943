#!/usr/bin/env python3
"""Has the program read a script of each kind that comes byte by byte, or whose stream fails after each byte, and write to a
file that takes so many bytes and no more, for each number. What it prints then is the whole text; nothing, with a fault of
reading; or just these bytes, with a fault of writing. Prints how many streams of each kind it tried.
Usage: examples/broken_streams.py PROGRAM"""

import os
import pty
import resource
import signal
import subprocess
import sys
import tempfile
import tty

READ = (1, b"", b"cpgring: the script is read from the terminal; Ctrl-D at the start of a line ends it\ncpgring: 42 Read\n")
WRITE = b"cpgring: 43 Write\n"
KINDS = {
    "judge": (["judge"], """\
1.1 40 7 100 join db
1.2 41 0 0 insert db 0 deny join uid:8
2.1 50 8 100 join db
1.1 40 7 100 send hello%20all
2.1 50 8 100 send hi
""", """\
1 1.1 40 7 100 join db -> allowed default group db members 1/40
2 1.2 41 0 0 insert db 0 deny join uid:8 -> allowed root group db members 1/40
3 2.1 50 8 100 join db -> denied rule 2 group db members 1/40
4 1.1 40 7 100 send hello%20all -> allowed default group db members 1/40
5 2.1 50 8 100 send hi -> denied closed
records 5
inbox 1.1
event 1 verdict allowed default
event 1 change db members 1/40 left - joined 1/40:join
event 2 rules db
event 4 verdict allowed default
event 4 message db 1 40 hello%20all
inbox 1.2
event 2 verdict allowed root
inbox 2.1
event 3 verdict denied rule 2
event 5 verdict denied closed
"""),
    "accept": (["accept"], """\
%conf
uidgid {
uid: 007
}
%conf
uidgid {
gid: 20
}
%ask
7 1
1 20
1 1
""", """\
accepted user
accepted group
refused 2 Access
"""),
    "step": (["step", "--nodes=2", "uid:7"], """\
connect 1 40 7 100
call 1 1 join db
call 1 1 send hi
frame 1 1
frame 2 3
deliver 2
frame 2 4
show 5
frame 1 5
show 7
frame 2 6
deliver 2
deliver 2
deliver 2
frame 2 7
show 8
""", """\
connected 1
admitted
admitted
sent 3
sent 0
delivered none
sent 1
token hop 2 seq 2 aru 0 id 2 rtr 1
sent 2
token hop 3 seq 2 aru 0 id 2 rtr -
sent 0
delivered 1
delivered 2
delivered none
sent 1
token hop 4 seq 2 aru 2 id none rtr -
"""),
    "run": (["run", "--nodes=2", "uid:7"], """\
connect 1 40 7 100
connect 2 60 9 9
call 1 join db
wait 1
wait 1
list 1 db
close 1
""", """\
session 1
refused 2 Access
admitted
event 1 verdict allowed default
event 1 change db members 1/40 left - joined 1/40:join
members 1/40
closed
"""),
}


def by_bytes(words, script):
    """What the program prints of a script that comes byte by byte."""
    with subprocess.Popen(words, stdin=subprocess.PIPE, stdout=subprocess.PIPE, stderr=subprocess.PIPE) as ran:
        for at in range(len(script)):
            os.write(ran.stdin.fileno(), script[at:at + 1])
        printed, told = ran.communicate()
    return ran.returncode, printed, told


def failing_after(words, script, count):
    """What it prints of a script whose stream fails after so many bytes: a terminal whose other end is gone."""
    reading, writing = pty.openpty()
    tty.setraw(writing)
    os.write(writing, script[:count])
    os.close(writing)
    ran = subprocess.run(words, stdin=reading, capture_output=True, check=False)
    os.close(reading)
    return ran.returncode, ran.stdout, ran.stderr


def take_few(count):
    """Files take so many bytes, and no signal says so."""
    signal.signal(signal.SIGXFSZ, signal.SIG_IGN)
    resource.setrlimit(resource.RLIMIT_FSIZE, (count, count))


def taking_few(words, script, count):
    """What it writes to a file that takes so many bytes."""
    with tempfile.TemporaryFile() as file:
        ran = subprocess.run(words, input=script, stdout=file, stderr=subprocess.PIPE, restore_signals=False,
                             preexec_fn=lambda: take_few(count), check=False)
        file.seek(0)
        return ran.returncode, file.read(), ran.stderr


def expect(name, ended, wanted):
    if ended != wanted:
        sys.exit(f"{name}: ended with {ended}, and not {wanted}")


def main():
    for kind, (words, script, text) in KINDS.items():
        words, script, text = [sys.argv[1], *words], script.encode(), text.encode()
        expect(f"{kind}, byte by byte", by_bytes(words, script), (0, text, b""))
        for count in range(len(script) + 1):
            expect(f"{kind}, read {count}", failing_after(words, script, count), READ)
        for count in range(len(text)):
            expect(f"{kind}, written {count}", taking_few(words, script, count), (1, text[:count], WRITE))
        print(f"{kind}: {len(script) + 1} streams that fail, {len(text)} files that take no more")


main()
