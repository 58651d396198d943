/* cpgring: one node of a closed process group service, for C and C++.
 *
 * A ring is 1 to 8 nodes that agree on one order of joins, leaves, messages and access rules. This library is one
 * node. It does no input or output, takes no time and starts no thread: the program hands it the frames that came in
 * and sends the frames that it hands over.
 *
 *     cpgring_frame      for each frame that came in, then cpgring_next until CPGRING_NONE: send each frame that it hands
 *                        over, to all other nodes or to the next one, as its route says
 *     cpgring_timer      where nothing came in for a while, then cpgring_next likewise. The ring starts so: the node with
 *                        the highest number makes the first token
 *     cpgring_deliver    until CPGRING_NONE, and then cpgring_take until CPGRING_NONE for each connection
 *
 * In a ring of one node cpgring_turn is all that the first two do: no frame is handed over, and none is brought.
 *
 * Statuses. Each call answers CPGRING_OK or one of the numbers below; cpgring_refusal_text names it. Unless a call says
 * otherwise, after any other status than CPGRING_OK nothing has changed, and what its out parameters point to has no
 * meaning. CPGRING_MEMORY may come from each call that allocates, and the call may be made again.
 *
 * Ownership. A node's memory belongs to its handle and is taken and given back by malloc, realloc and free of the
 * program; cpgring_close gives back all of it. A handle starts as CPGRING_INIT, is written by these calls alone, and is
 * never copied: two copies would be two owners. Buffers and texts belong to the caller; no call keeps a pointer. What
 * cpgring_lent and cpgring_audit_lent lend belongs to the node: it is read, never written or freed, for as long as they say.
 *
 * Pointers. Each must be valid for its length and aligned for its type, and none may be null, not even for 0 items. What
 * a call writes to may not overlap with anything else that is passed to it.
 *
 * Threads. Different handles are independent. One handle belongs to the thread that opened it. No call may be made from
 * a signal handler, nor in the child of a fork of a process with threads.
 */
#ifndef CPGRING_H
#define CPGRING_H

#include <stddef.h>
#include <stdint.h>
#ifdef __cplusplus
extern "C" {
#define CPGRING_HOLDS(test, text) static_assert(test, text)
#else
#include <stdbool.h>
#define CPGRING_HOLDS(test, text) _Static_assert(test, text)
#endif

/* What a call answers. */
enum {
    CPGRING_OK = 0,
    CPGRING_MEMORY = 1,           /* memory was asked for and not given */
    CPGRING_ACCESS = 2,           /* neither the user nor the group is 0 or listed */
    CPGRING_NO_CONNECTION = 3,    /* no open connection has that number */
    CPGRING_BAD_NAME = 4,         /* a group's name that is not 1 to 128 bytes of 0x21 to 0x7E */
    CPGRING_TOO_LONG = 5,         /* a message of more than 8,192 bytes */
    CPGRING_QUEUE_FULL = 6,       /* 256 calls wait at the node */
    CPGRING_CONNECTIONS_FULL = 7, /* the node has given all its 65,535 connection numbers */
    CPGRING_FOREIGN = 8,          /* a frame of another ring */
    CPGRING_NOT_MINE = 9,         /* a token whose hop is for another node */
    CPGRING_STALE = 10,           /* a token of a hop that was accepted already, or of an earlier one */
    CPGRING_IMPLAUSIBLE = 11,     /* a frame that no true run of the ring can bring */
    CPGRING_HELD = 12,            /* the packet's place is held or delivered */
    CPGRING_FAR_AHEAD = 13,       /* the packet's place is past the window */
    CPGRING_MALFORMED = 14,       /* bytes that spell no frame */
    CPGRING_RING_END = 15,        /* the ring's last hop was used */
    CPGRING_DENIED = 21,          /* the access rules denied it */
    CPGRING_BAD_LINE = 31,        /* a text: a line of no shape that is read */
    CPGRING_UNOPENED = 32,        /* a text: a section's close where none is open */
    CPGRING_UNCLOSED = 33,        /* a text: a section that no line closes */
    CPGRING_BAD_ITEM = 34,        /* a text: a key that the section does not have */
    CPGRING_BAD_VALUE = 35,       /* a text: a value that is empty, or a number past its range */
    CPGRING_UNKNOWN_NAME = 36,    /* a text: a user or group name that the names text lacks */
    CPGRING_RANGE = 37,           /* a setting, or a rule's number, outside its range */
    CPGRING_CLOSED = 64,          /* the handle is not open */
    CPGRING_SPACE = 65,           /* the buffer is too short; what was to be handed over is kept */
    CPGRING_BUSY = 66,            /* frames wait for cpgring_next; of cpgring_open: the handle is open already */
    CPGRING_NONE = 67             /* there is nothing to be handed over or told */
};

/* Limits, in bytes and in numbers of items. */
enum {
    CPGRING_MOST_NODES = 8,
    CPGRING_MOST_PLACES = 1048576,
    CPGRING_MOST_GROUP = 128,    /* a group's name */
    CPGRING_MOST_MESSAGE = 8192, /* a message */
    CPGRING_SHORT_MESSAGE = 64,  /* a message that a record may hold in itself: see cpgring_audit_lent */
    CPGRING_MOST_FRAME = 8221,   /* a frame: a message and 29 bytes */
    CPGRING_MOST_MEMBERS = 128,  /* of a group */
    CPGRING_MOST_RULES = 64      /* of a group's table */
};
#define CPGRING_MOST_HOPS (UINT64_C(1) << 62)

/* A node, or none. */
typedef struct cpgring {
    bool live;
    void *node;
} cpgring;

/* A handle that is not open. */
#define CPGRING_INIT { false, NULL }

/* A ring's settings, the same at all its nodes, and which of them this is. */
typedef struct cpgring_setup {
    uint32_t ring;   /* the ring's number, which each frame carries */
    uint8_t nodes;   /* how many nodes there are, 1 to 8 */
    uint8_t node;    /* which one this is, 1 to `nodes` */
    uint32_t places; /* how many places there are, 1 to 1,048,576: a ring ends after so many entries */
    uint64_t hops;   /* how many hops the token makes, 1 to 2^62 */
} cpgring_setup;

/* Where a text could not be read. */
typedef struct cpgring_fault {
    uint32_t text; /* 1 the names text, 2 the conf text, 0 neither */
    uint32_t line; /* the line at fault, from 1; 0 where it is no line's */
} cpgring_fault;

/* A rule of a group's access table. The conditions that are there all have to hold. */
typedef struct cpgring_rule {
    uint32_t id;     /* told by cpgring_table; not read by cpgring_insert */
    uint32_t effect; /* 1 allow, 2 deny */
    uint32_t right;  /* 1 join, 2 send, 3 list, 4 edit */
    bool has_uid, has_gid, has_node;
    uint32_t uid, gid;
    uint8_t node; /* 1 to 8, where has_node */
} cpgring_rule;

enum { CPGRING_ALLOW = 1, CPGRING_DENY = 2 };
enum { CPGRING_RIGHT_JOIN = 1, CPGRING_RIGHT_SEND = 2, CPGRING_RIGHT_LIST = 3, CPGRING_RIGHT_EDIT = 4 };

/* What an event is. */
enum { CPGRING_VERDICT = 1, CPGRING_MESSAGE = 2, CPGRING_CHANGE = 3, CPGRING_RULES = 4 };

/* A verdict: 0 allowed, else why an entry was denied. */
enum {
    CPGRING_ALLOWED = 0,
    CPGRING_BY_RULE = 1,    /* a rule denies it */
    CPGRING_BY_DEFAULT = 2, /* no rule speaks, and the right is denied by default */
    CPGRING_NO_GROUP = 3,   /* the connection is in no group */
    CPGRING_JOINED = 4,     /* the connection is in a group already */
    CPGRING_TWICE = 5,      /* the process is a member of the group already */
    CPGRING_FULL = 6,       /* the group has 128 members */
    CPGRING_POSITION = 7,   /* the index is past the table's end */
    CPGRING_TABLE_FULL = 8, /* the table has 64 rules */
    CPGRING_ABSENT = 9      /* no rule has that id */
};

/* What a verdict rests on; 0 where an entry is denied by what it asks itself. */
enum { CPGRING_ON_RULE = 1, CPGRING_ON_DEFAULT = 2, CPGRING_ON_ROOT = 3, CPGRING_ON_NOTHING = 4 };

/* What an event tells. What an event has no use for is 0. */
typedef struct cpgring_event {
    uint32_t kind;    /* CPGRING_VERDICT, CPGRING_MESSAGE, CPGRING_CHANGE or CPGRING_RULES */
    uint32_t place;   /* the place that tells it, from 1 */
    uint32_t node;    /* a message: its sender's node */
    uint32_t pid;     /* a message: its sender's process */
    uint32_t verdict; /* a verdict: CPGRING_ALLOWED, else why it is denied */
    uint32_t basis;   /* a verdict: what it rests on */
    uint32_t rule;    /* a verdict that rests on a rule: the rule's id */
    size_t group_len; /* bytes of the group's name; a verdict has none */
    size_t message_len;
    size_t members, left, joined; /* a change: how many there are after it, how many left and joined */
} cpgring_event;

/* A process of a group. */
typedef struct cpgring_process {
    uint32_t node;
    uint32_t conn; /* its connection's number at its node; 0 where cpgring_listed tells it */
    uint32_t pid;
    uint32_t cause; /* of cpgring_left and cpgring_joined: 1 it left, 2 its connection ended, 3 it joined; else 0 */
} cpgring_process;

enum { CPGRING_LEFT = 1, CPGRING_DOWN = 2, CPGRING_CAME = 3 };

/* What a place was given to, and what it was answered. */
typedef struct cpgring_record {
    uint32_t node, conn, pid, uid, gid; /* who asked */
    uint32_t call;                      /* 1 join, 2 leave, 3 send, 4 insert, 5 remove; 6 the connection's end */
    uint32_t verdict, basis, rule;      /* as of an event */
    size_t group_len, message_len;      /* 0 where there is none */
    size_t members;                     /* how many members the group has after it */
} cpgring_record;

/* To whom a frame goes. */
enum { CPGRING_TO_ALL = 1, CPGRING_TO_NEXT = 2 };

/* ---- Opening and closing ---- */

/* Opens a node that lets in user 0, group 0 and the users and groups of those numbers.
 * CPGRING_BUSY where the handle is open, CPGRING_RANGE where a setting is out of range, CPGRING_MEMORY. */
uint32_t cpgring_open(cpgring *handle, const cpgring_setup *setup, const uint32_t *users, size_t user_count,
                      const uint32_t *groups, size_t group_count);

/* The same with whom a conf text lists (`uidgid { uid: NAME-OR-NUMBER ... }`), its names as a names text says
 * (`user NAME NUMBER`, `group NAME NUMBER`). Also CPGRING_BAD_LINE to CPGRING_UNKNOWN_NAME: `fault` then says where. */
uint32_t cpgring_open_conf(cpgring *handle, const cpgring_setup *setup, const uint8_t *names, size_t names_len,
                           const uint8_t *conf, size_t conf_len, cpgring_fault *fault);

/* Closes a handle, and gives all its memory back. CPGRING_CLOSED where it is not open. */
uint32_t cpgring_close(cpgring *handle);

/* Closes a handle. The entries and records of its places then are `keeper`'s, to be given back by cpgring_shed: to give them
 * back at once takes a time that grows with their number. All else of the handle is given back here, and so is what `keeper`
 * still has of an earlier one. Nothing else of `keeper` changes. CPGRING_CLOSED where one of both is not open. */
uint32_t cpgring_close_into(cpgring *handle, cpgring *keeper);

/* Gives back what a handle that was closed into this one has of its last places, of `most` places or of all that are left.
 * Tells how many are left, 0 where nothing is. It allocates nothing. */
uint32_t cpgring_shed(cpgring *handle, size_t most, size_t *left);

/* ---- Connections. Each of these calls, but the first, waits at the node until the token comes. ---- */

/* Takes a connection of a process in, and tells its number, from 1. CPGRING_ACCESS, CPGRING_CONNECTIONS_FULL,
 * CPGRING_MEMORY. */
uint32_t cpgring_connect(cpgring *handle, uint32_t pid, uint32_t uid, uint32_t gid, uint16_t *conn);

/* Asks to become a member of a group. CPGRING_NO_CONNECTION, CPGRING_BAD_NAME, CPGRING_QUEUE_FULL, CPGRING_MEMORY. */
uint32_t cpgring_join(cpgring *handle, uint16_t conn, const uint8_t *group, size_t group_len);

/* Asks to leave the connection's group. CPGRING_NO_CONNECTION, CPGRING_QUEUE_FULL, CPGRING_MEMORY. */
uint32_t cpgring_leave(cpgring *handle, uint16_t conn);

/* Asks to send a message of 0 to 8,192 bytes to the connection's group. CPGRING_NO_CONNECTION, CPGRING_TOO_LONG,
 * CPGRING_QUEUE_FULL, CPGRING_MEMORY. */
uint32_t cpgring_send(cpgring *handle, uint16_t conn, const uint8_t *message, size_t message_len);

/* Asks to put a rule into a group's table, before the one at that index, from 0. CPGRING_RANGE where the numbers are
 * no rule's, and what cpgring_join answers. */
uint32_t cpgring_insert(cpgring *handle, uint16_t conn, const uint8_t *group, size_t group_len, uint8_t index,
                        const cpgring_rule *rule);

/* Asks to take the rule of that id out of a group's table. What cpgring_join answers. */
uint32_t cpgring_remove(cpgring *handle, uint16_t conn, const uint8_t *group, size_t group_len, uint32_t id);

/* Ends a connection; its end waits behind its calls. CPGRING_NO_CONNECTION, CPGRING_MEMORY. */
uint32_t cpgring_disconnect(cpgring *handle, uint16_t conn);

/* ---- Frames ---- */

/* Hears a frame. What the node answers is to be handed over by cpgring_next: the packets first, the token last.
 * CPGRING_BUSY while frames of an earlier answer wait; CPGRING_FOREIGN to CPGRING_RING_END: the frame changes nothing,
 * and the ring goes on; CPGRING_MEMORY. */
uint32_t cpgring_frame(cpgring *handle, const uint8_t *frame, size_t frame_len);

/* The last token that the node sent is to be handed over again. CPGRING_NONE where it sent none, CPGRING_BUSY,
 * CPGRING_MEMORY. */
uint32_t cpgring_timer(cpgring *handle);

/* The token goes round once in a ring of one node: the node hears the last token that it sent, which gives places to what
 * waits, up to eight, and makes the next token. No packet and no token is handed over, as there is nobody to send them to.
 * It is what cpgring_timer, cpgring_next, cpgring_frame with that token, and cpgring_next until CPGRING_NONE come to there.
 * CPGRING_NOT_MINE in a ring of more nodes; CPGRING_NONE, CPGRING_BUSY, as cpgring_timer; CPGRING_RING_END, CPGRING_MEMORY. */
uint32_t cpgring_turn(cpgring *handle);

/* Hands the next frame over, once, with its length, and CPGRING_TO_ALL or CPGRING_TO_NEXT. CPGRING_NONE where none
 * waits. CPGRING_SPACE where it is longer than the buffer: length and route are told, and it still waits. */
uint32_t cpgring_next(cpgring *handle, uint8_t *frame, size_t capacity, size_t *frame_len, uint32_t *route);

/* Judges the next place and takes it as delivered, and tells it. CPGRING_NONE where it is not there, CPGRING_MEMORY. */
uint32_t cpgring_deliver(cpgring *handle, uint32_t *place);

/* ---- Events. What is handed over of an event stays until the next cpgring_take that answers CPGRING_OK. ---- */

/* Takes the connection's next event and tells of it. CPGRING_NONE where there is none yet, CPGRING_NO_CONNECTION,
 * CPGRING_MEMORY. */
uint32_t cpgring_take(cpgring *handle, uint16_t conn, cpgring_event *event);

/* Hands over the group's name, and the message, of the last event: as many bytes as it told. CPGRING_NONE where the event
 * has none, CPGRING_SPACE. */
uint32_t cpgring_group(cpgring *handle, uint8_t *group, size_t capacity);
uint32_t cpgring_message(cpgring *handle, uint8_t *message, size_t capacity);

/* Lends the last event's message: tells where its bytes stand, in the node's own memory, and how many there are; they are not
 * copied. They stay there until the next cpgring_take that answers CPGRING_OK, or cpgring_close, whatever other calls are made.
 * NULL where there are 0 bytes. CPGRING_NONE where the event has no message. */
uint32_t cpgring_lent(cpgring *handle, const uint8_t **message, size_t *message_len);

/* Tells one of the last event's members, of those who left, or of those who joined, by its index from 0. CPGRING_NONE
 * past the last. */
uint32_t cpgring_member(cpgring *handle, size_t index, cpgring_process *process);
uint32_t cpgring_left(cpgring *handle, size_t index, cpgring_process *process);
uint32_t cpgring_joined(cpgring *handle, size_t index, cpgring_process *process);

/* ---- Listings, over what was delivered ---- */

/* Lists a group's members for a connection, and tells how many. CPGRING_NO_CONNECTION, CPGRING_DENIED, CPGRING_MEMORY. */
uint32_t cpgring_list(cpgring *handle, uint16_t conn, const uint8_t *group, size_t group_len, size_t *count);

/* Tells one process of the last cpgring_list that answered CPGRING_OK, by its index from 0. CPGRING_NONE past the last. */
uint32_t cpgring_listed(cpgring *handle, size_t index, cpgring_process *process);

/* Lists the groups with members that the connection may list, and tells how many. CPGRING_NO_CONNECTION,
 * CPGRING_MEMORY. */
uint32_t cpgring_groups(cpgring *handle, uint16_t conn, size_t *count);

/* Hands over one name of the last cpgring_groups that answered CPGRING_OK, by its index from 0, with its length.
 * CPGRING_NONE past the last; CPGRING_SPACE: the length is told. */
uint32_t cpgring_named(cpgring *handle, size_t index, uint8_t *group, size_t capacity, size_t *group_len);

/* Listings for the program itself, which no rule denies and which need no connection: finds all who are members of a group
 * now, of whatever group, in the order of their joins, and tells how many there are. It goes over all records once.
 * CPGRING_MEMORY. */
uint32_t cpgring_seats(cpgring *handle, size_t *count);

/* Tells the place of the join by which one of them is a member, by its index from 0, as the last cpgring_seats that answered
 * CPGRING_OK found it: cpgring_audit tells its node, connection, process, user and group of users, cpgring_audit_group the
 * group's name. CPGRING_NONE past the last. */
uint32_t cpgring_seat(cpgring *handle, size_t index, uint32_t *place);

/* Tells a rule of a group's table, by its index from 0. CPGRING_NONE past the last. */
uint32_t cpgring_table(cpgring *handle, const uint8_t *group, size_t group_len, size_t index, cpgring_rule *rule);

/* Tells the record of a place, from 1, that was delivered. CPGRING_NONE for any other. */
uint32_t cpgring_audit(cpgring *handle, uint32_t place, cpgring_record *record);

/* Tells one of those, at any node, to whom a place that was delivered tells something, by an index from 0: first who made
 * its entry, and then, where that was allowed, the members of its group after it, among whom the maker may be once more.
 * Each takes the same time. CPGRING_NONE past the last, and for any other place. */
uint32_t cpgring_notified(cpgring *handle, uint32_t place, size_t index, cpgring_process *process);

/* Hands over the group's name, and the message, of a record. CPGRING_NONE where it has none, CPGRING_SPACE. */
uint32_t cpgring_audit_group(cpgring *handle, uint32_t place, uint8_t *group, size_t capacity);
uint32_t cpgring_audit_message(cpgring *handle, uint32_t place, uint8_t *message, size_t capacity);

/* Lends a record's message, as cpgring_lent does an event's. The bytes of a message of more than CPGRING_SHORT_MESSAGE stay
 * there until cpgring_close, whatever other calls are made: a record stays as long as its node. Those of a shorter one may
 * lie in the record itself, which moves when records are added: they stay until the next cpgring_deliver that answers
 * CPGRING_OK, or cpgring_close. CPGRING_NONE where the record has no message. */
uint32_t cpgring_audit_lent(cpgring *handle, uint32_t place, const uint8_t **message, size_t *message_len);

/* Tells how many places the node delivered. */
uint32_t cpgring_delivered(cpgring *handle, uint32_t *place);

/* Tells the place up to which every node holds all places, in a ring that hears only what its nodes sent. */
uint32_t cpgring_safe(cpgring *handle, uint32_t *place);

/* Tells how many calls and ends of connections wait at the node for a place. */
uint32_t cpgring_waiting(cpgring *handle, size_t *count);

/* Tells how many places were given out and how many hops the token made, as the last token says that the node sent: what
 * the setup has more is left. CPGRING_NONE where the node sent none. */
uint32_t cpgring_reached(cpgring *handle, uint32_t *places, uint64_t *hops);

/* ---- In the header alone ---- */

/* A status's name, as "6 QueueFull"; "?" for a number that no call answers. */
static inline const char *cpgring_refusal_text(uint32_t status) {
    switch (status) {
    case CPGRING_OK: return "0 Ok";
    case CPGRING_MEMORY: return "1 Memory";
    case CPGRING_ACCESS: return "2 Access";
    case CPGRING_NO_CONNECTION: return "3 NoConnection";
    case CPGRING_BAD_NAME: return "4 BadName";
    case CPGRING_TOO_LONG: return "5 TooLong";
    case CPGRING_QUEUE_FULL: return "6 QueueFull";
    case CPGRING_CONNECTIONS_FULL: return "7 ConnectionsFull";
    case CPGRING_FOREIGN: return "8 Foreign";
    case CPGRING_NOT_MINE: return "9 NotMine";
    case CPGRING_STALE: return "10 Stale";
    case CPGRING_IMPLAUSIBLE: return "11 Implausible";
    case CPGRING_HELD: return "12 Held";
    case CPGRING_FAR_AHEAD: return "13 FarAhead";
    case CPGRING_MALFORMED: return "14 Malformed";
    case CPGRING_RING_END: return "15 RingEnd";
    case CPGRING_DENIED: return "21 Denied";
    case CPGRING_BAD_LINE: return "31 BadLine";
    case CPGRING_UNOPENED: return "32 Unopened";
    case CPGRING_UNCLOSED: return "33 Unclosed";
    case CPGRING_BAD_ITEM: return "34 BadItem";
    case CPGRING_BAD_VALUE: return "35 BadValue";
    case CPGRING_UNKNOWN_NAME: return "36 UnknownName";
    case CPGRING_RANGE: return "37 Range";
    case CPGRING_CLOSED: return "64 Closed";
    case CPGRING_SPACE: return "65 Space";
    case CPGRING_BUSY: return "66 Busy";
    case CPGRING_NONE: return "67 None";
    default: return "?";
    }
}

/* The layouts that the library was built with. */
CPGRING_HOLDS(sizeof(void *) == 8 && sizeof(size_t) == 8 && sizeof(bool) == 1, "a 64-bit target");
CPGRING_HOLDS(sizeof(cpgring) == 16 && offsetof(cpgring, node) == 8, "the layout of a handle");
CPGRING_HOLDS(sizeof(cpgring_setup) == 24 && offsetof(cpgring_setup, nodes) == 4 && offsetof(cpgring_setup, node) == 5 &&
                  offsetof(cpgring_setup, places) == 8 && offsetof(cpgring_setup, hops) == 16,
              "the layout of a setup");
CPGRING_HOLDS(sizeof(cpgring_fault) == 8 && offsetof(cpgring_fault, line) == 4, "the layout of a fault");
CPGRING_HOLDS(sizeof(cpgring_rule) == 28 && offsetof(cpgring_rule, right) == 8 && offsetof(cpgring_rule, has_uid) == 12 &&
                  offsetof(cpgring_rule, has_node) == 14 && offsetof(cpgring_rule, uid) == 16 &&
                  offsetof(cpgring_rule, gid) == 20 && offsetof(cpgring_rule, node) == 24,
              "the layout of a rule");
CPGRING_HOLDS(sizeof(cpgring_event) == 72 && offsetof(cpgring_event, pid) == 12 && offsetof(cpgring_event, basis) == 20 &&
                  offsetof(cpgring_event, rule) == 24 && offsetof(cpgring_event, group_len) == 32 &&
                  offsetof(cpgring_event, members) == 48 && offsetof(cpgring_event, joined) == 64,
              "the layout of an event");
CPGRING_HOLDS(sizeof(cpgring_process) == 16 && offsetof(cpgring_process, cause) == 12, "the layout of a process");
CPGRING_HOLDS(sizeof(cpgring_record) == 64 && offsetof(cpgring_record, call) == 20 && offsetof(cpgring_record, rule) == 32 &&
                  offsetof(cpgring_record, group_len) == 40 && offsetof(cpgring_record, members) == 56,
              "the layout of a record");

#undef CPGRING_HOLDS

#ifdef __cplusplus
}
#endif
#endif
