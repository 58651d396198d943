/* One node with its clients: a client's bytes become calls of the node, and what the node answers and tells becomes bytes
 * for the client. No input or output and no clock: sockets.c moves the bytes, gate.c the frames.
 * Any bytes give asks or the end of that client alone; a client acts through its own connection alone. */
#ifndef CPGRINGD_NODE_H
#define CPGRINGD_NODE_H
#include "bytes.h"
#include "names.h"
#include "out.h"
#include <cpgring.h>
#include <stdbool.h>
#include <stddef.h>

enum {
    MOST_WAITING = 256,
    MOST_CONNECTIONS = 65536,
    MOST_LISTINGS = 8 /* listings of all groups that a node hears in a turn of the loop */
};

/* What is limited, as the options say. */
struct limits {
    uint64_t unread;           /* bytes a client may be behind with reading */
    uint64_t user_unread;      /* and all clients of one user */
    unsigned user_connections; /* connections of one user at all nodes */
    unsigned connections;      /* and of all users */
    unsigned user_calls;       /* calls of one user that wait at a node */
    unsigned user_ungreeted;   /* of them, connections that did not greet yet */
    unsigned greet_seconds;    /* for so long */
    unsigned user_lanes;       /* connections of one user that have lanes in place of their socket */
    size_t room;               /* bytes kept ready for a socket: a client with more is told nothing more, and not heard */
};

/* A user who has connections, at whatever nodes. */
struct user {
    struct user *next;
    uint32_t uid;
    unsigned connections, ungreeted, lanes;
    unsigned waiting[CPGRING_MOST_NODES]; /* calls that wait at each node for a place */
    uint64_t unread;
};

/* A member of a group: the join by which it is one, as the node's record has it. */
struct seat {
    uint32_t place;
    cpgring_record join;
    struct name name; /* of the group, as the node has it */
};

enum end { END_NOT, END_CLOSED, END_BROKEN, END_BEHIND, END_NO_MEMORY, END_REFUSED, END_SILENT, END_PUSHED };

struct client {
    struct client *next, *previous;               /* of its node */
    struct client *next_active, *previous_active; /* of the clients that the loop has to look at */
    struct node *node;
    struct user *user;
    uint32_t pid, uid, gid;
    uint16_t conn;     /* 0: it did not greet yet */
    uint16_t old_conn; /* its connection in the ring before, where that has events left for it; else 0 */
    uint16_t asked, asked_tag; /* the call, other than a send, whose verdict is owed: 0 none; nothing is heard until then */
    uint64_t owed_sends;       /* sends before it whose verdicts are owed */
    struct name joining, group; /* as the client says them, not as the node has them */
    struct name joining_code;
    uint64_t untaken; /* bytes of what the node told it and it did not take */
    uint64_t counted; /* of its unread bytes, what its user was charged with */
    uint64_t told_messages, heard_asks;
    struct bytes in;
    struct out out;
    enum end end;
    bool greeted, active, told, blocked; /* blocked: a call found the queue full, or closed */
    bool hung, full;                     /* hung: the other end is closed; full: the socket takes no more now */
    bool auditing;                       /* it is told an audit, and nothing is heard meanwhile: places audit_next to audit_last */
    uint32_t audit_next, audit_last;
    uint16_t audit_tag;
    uint64_t came;                       /* when, in milliseconds */
    struct client *next_ungreeted, *previous_ungreeted;
    int fd;
    uint32_t interest;
    bool wants_lanes;    /* they are to be given with the answer to its greeting, which is the front of `out` */
    struct lanes *lanes; /* lanes.h; NULL: it has none */
};

struct table { /* a group whose rules were changed */
    struct table *next;
    struct name name;
};

struct node {
    cpgring ring;
    cpgring old;      /* the ring before, until it is closed */
    size_t to_free;   /* places of the ring before, closed, whose memory is freed piece by piece */
    unsigned lagging; /* clients for which it has events left */
    cpgring_setup setup;
    uint16_t own; /* the daemon's own connection */
    struct client *clients;
    unsigned hung;             /* clients whose other end is closed */
    unsigned count, connected; /* connected: connections that this ring gave out */
    struct client **by_conn;   /* MOST_CONNECTIONS */
    struct table *tables;
    struct client **told; /* clients that a place told something, each once */
    unsigned count_told, room_told;
    struct lender lenders[2]; /* of messages: this ring's node and that of the one before */
    unsigned lending;         /* which of them is this ring's */
    unsigned listings; /* of all groups, which may still be heard in this turn */
    struct client *first_active, *last_active;
    uint32_t delivered;
    uint64_t delivered_bytes; /* of messages, in this ring */
    bool closed_for_calls;    /* no calls are heard, other asks are: the ring ends */
};

extern struct limits limits;

/* ---- node.c: opening, clients that come and go ---- */

/* Opens the node of that setup over a handle that is closed; its own connection is made. A status of cpgring.h. */
uint32_t node_open(struct node *node, const cpgring_setup *setup, const char *conf, size_t conf_len, const char *names,
                   size_t names_len, cpgring_fault *fault);
/* Forgets which groups have rules, and what was counted, as a new ring begins. */
void node_forget(struct node *node);
void node_close(struct node *node);

/* NULL: no memory. */
struct client *client_new(struct node *node, uint32_t pid, uint32_t uid, uint32_t gid);
/* Its connection ends at the node, behind its calls; what was told it is dropped. */
void client_free(struct client *c);
/* Marks a client that is to go; the first reason counts. */
void client_end(struct client *c, enum end end);
/* The other end is closed: what it left is heard, and then it ends. */
void client_hang(struct client *c);
void client_activate(struct client *c);
void client_rest(struct client *c);
/* Counts what it has not read against its user, and ends it where that is too much. */
void client_account(struct client *c);
/* Bytes that a client's buffers keep while they are empty: less where its user has many connections. */
size_t client_kept(const struct client *c);
const char *end_text(enum end end);

/* ---- asks.c: what clients ask ---- */

/* The length of the whole ask at the front of what came in, 0 where none is whole, SIZE_MAX where it is none. */
size_t ask_at(const struct client *c, struct head *head);
/* Whether an ask is there that could be heard now. */
bool client_hearable(const struct client *c);
/* Hears up to so many asks, as far as the node takes them. How many were heard. */
unsigned client_hear(struct client *c, unsigned most);

/* ---- tells.c: what clients are told ---- */

/* A frame with room for so many bytes behind its head. NULL: no memory, and the client is at its end. */
uint8_t *tell(struct client *c, uint16_t kind, uint16_t tag, size_t len);
void answer(struct client *c, uint16_t ask, uint16_t tag, uint32_t status);
void tell_denied(struct client *c, uint32_t status, uint32_t verdict, uint32_t rule);
uint32_t status_of_refusal(uint32_t refusal);
/* Takes what the node has to tell its clients, as far as there is room. */
void node_tell(struct node *node);
/* The ring becomes the one before, and what it lends is lent by that one. */
void node_tell_later(struct node *node);
/* Whether the ring before has nothing left for any client, and lends nothing. */
bool node_told_old(const struct node *node);
/* Takes what the ring before still has for its clients, without regard to room. */
void node_tell_old(struct node *node);
/* A new ring was made ready: what it tells of that is taken and dropped. */
void node_tell_nothing(struct node *node);

/* ---- seats.c: whom a place told something, and who is a member of what ---- */

/* The client was told something, of about so many bytes. */
void note_told(struct node *node, struct client *c, uint64_t cost);
/* A place was delivered: notes whom it told something. */
void node_delivered(struct node *node, uint32_t place, const cpgring_record *record);
/* All who are members now, in the order of their joins, which the caller frees. NULL: no memory. */
struct seat *seats_of(struct node *node, size_t *count);
/* Puts those of a group together, in the order of their joins. */
void seats_by_group(struct seat *seats, size_t count);
/* How many of the first ones are of one group. */
size_t seats_in_group(const struct seat *seats, size_t count);
/* Puts them in the order of their connections, and finds that of one. NULL: it is in no group. */
void seats_by_connection(struct seat *seats, size_t count);
const struct seat *seat_of(const struct seat *seats, size_t count, uint32_t node, uint32_t conn);
#endif
