#!/usr/bin/env python3
"""A member of a closed process group, in Python over libcpg by ctypes: it joins a group, says each line of its input and
prints what all members say, until the input ends. It runs over cpgringd and over Corosync alike; which one is a matter of
the libcpg.so.4 that is found (LD_LIBRARY_PATH).
Usage: cpg.py GROUP"""

import ctypes
import os
import select
import sys

OK, TRY_AGAIN, AGREED, DISPATCH_ALL, MOST_NAME = 1, 6, 2, 2, 128
Handle = ctypes.c_uint64


class Name(ctypes.Structure):
    _fields_ = [("length", ctypes.c_uint32), ("value", ctypes.c_char * MOST_NAME)]


class Address(ctypes.Structure):
    _fields_ = [("node", ctypes.c_uint32), ("pid", ctypes.c_uint32), ("reason", ctypes.c_uint32)]


class Part(ctypes.Structure):
    _fields_ = [("base", ctypes.c_char_p), ("length", ctypes.c_size_t)]


Addresses, Size, Word = ctypes.POINTER(Address), ctypes.c_size_t, ctypes.c_uint32
Deliver = ctypes.CFUNCTYPE(None, Handle, ctypes.POINTER(Name), Word, Word, ctypes.c_void_p, Size)
Change = ctypes.CFUNCTYPE(None, Handle, ctypes.POINTER(Name), Addresses, Size, Addresses, Size, Addresses, Size)


class Callbacks(ctypes.Structure):
    _fields_ = [("deliver", Deliver), ("change", Change)]


def deliver(_handle, _name, node, pid, message, length):
    print(f"{node}/{pid}: {ctypes.string_at(message, length).decode(errors='replace')}", flush=True)


def change(_handle, _name, members, count, _left, _left_count, _joined, _joined_count):
    print("members", *(f"{members[k].node}/{members[k].pid}" for k in range(count)), flush=True)


def must(status):
    if status != OK:
        sys.exit(f"cpg.py: libcpg answers {status}")


def say(libcpg, handle, line):
    """Sends a line; where the daemon takes nothing now, what it tells is taken first."""
    while (status := libcpg.cpg_mcast_joined(handle, AGREED, Part(line, len(line)), 1)) == TRY_AGAIN:
        must(libcpg.cpg_dispatch(handle, DISPATCH_ALL))
    must(status)


def main(group):
    libcpg = ctypes.CDLL("libcpg.so.4")
    libcpg.cpg_join.argtypes, libcpg.cpg_dispatch.argtypes = [Handle, ctypes.POINTER(Name)], [Handle, ctypes.c_int]
    libcpg.cpg_mcast_joined.argtypes = [Handle, ctypes.c_int, ctypes.POINTER(Part), ctypes.c_uint]
    handle, descriptor, callbacks = Handle(), ctypes.c_int(), Callbacks(Deliver(deliver), Change(change))
    must(libcpg.cpg_initialize(ctypes.byref(handle), ctypes.byref(callbacks)))
    must(libcpg.cpg_join(handle, Name(len(group), group)))
    must(libcpg.cpg_fd_get(handle, ctypes.byref(descriptor)))
    while typed := os.read(0, 8192) if 0 in select.select([0, descriptor.value], [], [])[0] else b"\n":
        for line in filter(None, typed.splitlines()):
            say(libcpg, handle, line)
        must(libcpg.cpg_dispatch(handle, DISPATCH_ALL))
    must(libcpg.cpg_finalize(handle))


main(sys.argv[1].encode())
