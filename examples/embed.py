#!/usr/bin/env python3
"""Two nodes of a ring in one process. It needs c/out/libcpgring.so (`make -C c`), and nothing beside Python."""
import ctypes as c
import pathlib

library = c.CDLL(str(pathlib.Path(__file__).resolve().parent.parent / "c/out/libcpgring.so"))


def struct(**fields):
    return type("Struct", (c.Structure,), {"_fields_": list(fields.items())})


Handle = struct(live=c.c_bool, node=c.c_void_p)
Setup = struct(ring=c.c_uint32, nodes=c.c_uint8, node=c.c_uint8, places=c.c_uint32, hops=c.c_uint64)
Event = struct(**dict.fromkeys("kind place node pid verdict basis rule".split(), c.c_uint32),
               **dict.fromkeys("group_len message_len members left joined".split(), c.c_size_t))


def call(name, handle, *words):
    """Whether a call is done. Bytes and buffers go with their lengths, and any other object is written to."""
    pairs = [(word, c.c_size_t(len(word))) if isinstance(word, (bytes, c.Array)) else (word,) for word in words]
    flat = [word if isinstance(word, (int, bytes, c.c_size_t, c.Array)) else c.byref(word) for pair in pairs for word in pair]
    return getattr(library, "cpgring_" + name)(c.byref(handle), *flat) == 0


def answers(node):
    """The frames that a node hands over."""
    frame, size, route = (c.c_uint8 * 8221)(), struct(n=c.c_size_t)(), c.c_uint32()
    while call("next", node, frame, size, route):
        yield bytes(frame[:size.n])


def events(node):
    """What connection 1 of a node is told."""
    event, place, text = Event(), c.c_uint32(), (c.c_char * 8192)()
    while call("deliver", node, place):
        while call("take", node, 1, event):
            if event.kind == 2 and call("message", node, text):
                yield f"{event.place} message {event.node}/{event.pid} {text.raw[:event.message_len].decode()}"


nodes, told = [Handle(), Handle()], [[], []]
for number, node in enumerate(nodes, 1):
    nobody = (c.c_uint32 * 0)()
    assert call("open", node, Setup(1, 2, number, 1000, 1000), nobody, nobody)
    assert call("connect", node, 40 + number, 0, 0, c.c_uint16()) and call("join", node, 1, b"chat")
assert call("timer", nodes[1])
for turn in range(10):
    assert all([call("frame", nodes[turn % 2], frame) for frame in answers(nodes[(turn + 1) % 2])])
    for node, lines in zip(nodes, told):
        lines.extend(events(node))
    assert turn not in (4, 5) or call("send", nodes[turn - 4], 1, f"hello from {turn - 3}".encode())
assert all(call("close", node) and not call("close", node) for node in nodes)
print("\n".join(told[0]))
assert len(told[0]) == 2 and told[0] == told[1]
