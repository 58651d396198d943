/* What cpgringd and its clients say to each other over a Unix stream socket: frames, their kinds and their bodies.
 * Both ends are on one machine, so numbers stand in the machine's own order. Libcpg, cpgringctl and the tests include it.
 *
 * A frame is a head of 8 bytes (how many bytes follow, a kind, a tag), then those bytes. What the daemon sends is filled
 * up to a multiple of 8, so that a message lies aligned in its reader's buffer.
 *
 * A client's first frame is ASK_HELLO. Each frame that asks, but ASK_SEND, has one answer, in order, of the kind
 * (its own | ANSWER) with its own tag, which begins with a status: a number of cs_error_t. ASK_SEND has none: where it is
 * denied, TELL_DENIED says so, at its place among the events. */
#ifndef CPGRINGD_PROTOCOL_H
#define CPGRINGD_PROTOCOL_H
#include <stdint.h>

enum {
    PROTOCOL_VERSION = 1,
    MOST_NAME = 128,     /* bytes of a group's name */
    MOST_PAYLOAD = 8192, /* bytes of a message */
    MOST_ASK = 8192,     /* bytes behind the head of a client's frame */
    MOST_TELL = 64 << 20 /* bytes behind the head of a daemon's frame: more is no daemon's */
};

struct head {
    uint32_t len;
    uint16_t kind, tag;
};

/* Kinds of a client's frames, and what stands behind the head. */
enum {
    ASK_HELLO = 1,   /* u32 version, u32 of HELLO bits. Answer: struct hello */
    ASK_JOIN = 2,    /* the group's name: 0 to 128 bytes of any value */
    ASK_LEAVE = 3,   /* nothing */
    ASK_SEND = 4,    /* the message */
    ASK_MEMBERS = 5, /* the group's name. Answer: status, count, count * struct listed */
    ASK_GROUPS = 6,  /* u32: 1 with members, 0 names alone. Answer: status, count, count * struct listed_group, each with
                        its members behind it */
    ASK_INSERT = 7,  /* struct ask_rule, then the group's name */
    ASK_REMOVE = 8,  /* u32 id, then the group's name */
    ASK_CONTROL = 9, /* a line of words. TELL_TEXT, any number of times, then the answer: a status */
    ANSWER = 0x100
};

/* Kinds of what the daemon tells beside answers. */
enum {
    TELL_SKIP = 0x200,    /* no daemon sends it: libcpg marks answers so that it took out of the stream */
    TELL_MESSAGE = 0x201, /* struct tell_message, the message filled up to a multiple of 8, the group's name */
    TELL_CHANGE = 0x202,  /* struct tell_change, struct told_process for each, the group's name */
    TELL_DENIED = 0x203,  /* struct tell_denied */
    TELL_TEXT = 0x204     /* u32 length, text */
};

/* The client would have lanes (lane.h). Where the daemon gives them, descriptors come with the answer's first byte: of their
 * memory, and of the pipe by which the client is rung. All frames behind the answer then go through the lanes, and a byte in
 * the socket rings the daemon. */
enum { HELLO_LANES = 1 };

struct hello {
    uint32_t status, node, nodes, most;
    uint64_t ring;
};

struct listed {
    uint32_t node, pid;
};

struct listed_group {
    uint32_t members, name_len;
    uint8_t name[MOST_NAME];
};

enum { HAS_UID = 1, HAS_GID = 2, HAS_NODE = 4 };

struct ask_rule {
    uint32_t index, effect, right, has;
    uint32_t uid, gid, node;
};

struct tell_message {
    uint32_t node, pid, message_len, name_len;
};

/* How many processes of each kind follow: members, who left, who joined. */
struct tell_change {
    uint32_t name_len, members, left, joined;
};

struct told_process {
    uint32_t node, pid, reason;
};

struct tell_denied {
    uint32_t status, verdict, rule;
};

static inline uint32_t fill8(uint32_t length) { return (length + 7) & ~7u; }
#endif
