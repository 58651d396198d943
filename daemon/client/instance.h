/* A handle's state, and the parts of libcpg: handles.c, stream.c, lanes.c, dispatch.c, pieces.c, calls.c and iterations.c.
 * A handle is one Unix socket, in whose place there are lanes where the daemon gives some. Asks go out as they are made;
 * answers and events come in one stream, so that an answer stands among the events where the node gave it. A call that waits
 * for its answer keeps the events before it. */
#ifndef CPGRING_INSTANCE_H
#define CPGRING_INSTANCE_H
#include "../lane.h"
#include "../protocol.h"
#include "../spin.h"
#include <corosync/cpg.h>
#include <pthread.h>
#include <stdatomic.h>
#include <stdbool.h>

#define PUBLIC __attribute__((visibility("default")))

enum {
    READ_AT_ONCE = 256 << 10,
    KEPT_ROOM = 16 << 20, /* a buffer with more room is given back once it was dispatched */
    MOST_MESSAGE = 16 << 20,
    MOST_PARTS = 1024,     /* of a message, as the program gives it */
    MOST_KEPT = 256 << 20, /* bytes of events that wait for a dispatch: with more, nothing is sent until there is one */
    WAIT_MS = 30000,       /* the most that a call waits for its answer; CPGRING_WAIT has another number */
    SPIN_US = 20           /* the most that a wait looks before it sleeps; CPGRING_SPIN has another number */
};

struct buffer {
    uint8_t *at;
    size_t begin, end, room;
};

/* Pieces of one sender's message that came so far. */
struct partial {
    struct partial *next;
    uint32_t node, pid, whole, have, room;
    uint8_t *data;
};

/* Memory of messages that were joined, for those to come: fresh memory costs more than its copy. */
enum { SPARES = 8, MOST_SPARE = MOST_MESSAGE / SPARES };
struct spare {
    uint8_t *data;
    uint32_t room;
};

struct pinned { /* a buffer that a callback further out still looks at */
    struct pinned *next;
    uint8_t *at;
};

/* How a program sends and dispatches by turns, where it does; see lanes_linger. */
struct pace {
    _Atomic uint64_t sent_at; /* when the first message since the last dispatch was sent, in nanoseconds; 0: there was none */
    atomic_uint alone;        /* so many messages were alone, each until it was back within a short time */
    unsigned skip, back_off;  /* after a look in vain, so many messages are not looked for */
};

struct instance {
    unsigned uses;      /* under the table's lock */
    cpg_handle_t handle;
    atomic_bool closed; /* finalized */
    atomic_bool broken; /* the daemon is gone, or what it says is nonsense */
    atomic_bool joined;
    atomic_int denied;  /* a status that the next send tells: an earlier one was denied; CS_OK: none */
    atomic_int flow;
    int fd, poll_fd, ready, noted;
    unsigned wait_ms;
    bool like_corosync;
    struct hello hello;
    cpg_model_v1_data_t model;
    _Atomic(void *) context;

    void *memory; /* of the lanes; NULL: there are none */
    int bell;
    atomic_bool asked_room; /* the bell may ring without an event */
    bool greeting;          /* descriptors may come; with some, `given` has them */
    bool cut_off;           /* they came, and there was no room for them */
    int given[2];

    pthread_mutex_t sync; /* one call that waits for an answer at a time */
    uint16_t tag;         /* of its ask */

    pthread_mutex_t out; /* the writing end of the socket, or of the lane */
    struct lane up;
    struct pace pace;
    struct buffer rest;  /* what the socket did not take of an ask that it had begun to take */
    atomic_bool rest_left; /* some of it is left */

    pthread_mutex_t in; /* the reading end of the socket, or of the lane */
    struct lane down;
    struct buffer read; /* whole frames up to `parsed`, then what is left */
    size_t parsed;
    bool ready_set;
    bool drained; /* the last read took all that there was, as it seems */
    uint16_t wanted; /* the tag of the answer that is waited for; 0: none */
    uint8_t *answer;
    uint32_t answer_len;

    pthread_mutex_t dispatch; /* one dispatch at a time; recursive, for calls of callbacks */
    struct spin dispatch_spin;
    unsigned depth;
    struct buffer now; /* whole frames that are being dispatched */
    atomic_bool now_left; /* some of them are left */
    struct pinned *pinned;
    struct partial *partials;
    struct cpg_name partials_of; /* the group that they are of */
    struct spare spares[SPARES];
    bool first_change;
};

/* ---- handles.c ---- */

/* The instance of a handle, which is used until it is put back. NULL: no such handle. */
struct instance *instance_get(cpg_handle_t handle);
void instance_put(struct instance *i);
/* A free slot of a table of pointers, and the number that goes with it. */
enum { MOST_HANDLES = 4096 };
extern pthread_mutex_t table_lock;

/* ---- stream.c ---- */

uint64_t clock_ms(void);
/* Room for so many bytes behind the end. NULL: no memory. */
uint8_t *buffer_room(struct buffer *b, size_t more);
/* Reads what is there, once. The lock `in` is held. Whether there was anything. */
bool stream_fetch(struct instance *i);
/* Has the descriptor for poll say whether events wait that no read of the socket would bring. The lock `in` is held. */
void stream_mark(struct instance *i);
/* Sends what was left of an ask that was begun. The lock `out` is held. false: the socket is full. */
bool stream_flush(struct instance *i);
bool stream_flush_any(struct instance *i);
/* Sends the parts as they are. The lock `out` is held.
 * SEND_NOW: CS_ERR_TRY_AGAIN where the socket takes nothing now; what it does not take of what it began to take is kept.
 * SEND_BEGUN: the same, but then it waits until all is taken. SEND_SURELY: it waits. All waits are within the limit. */
enum way { SEND_NOW, SEND_BEGUN, SEND_SURELY };
cs_error_t stream_send(struct instance *i, struct iovec *parts, unsigned count, enum way way);
/* Asks and waits for the answer, which the caller frees: its length is told where it is wanted. */
cs_error_t stream_ask(struct instance *i, uint16_t kind, const void *body, uint32_t len, uint8_t **answer, uint32_t *answer_len);

/* ---- lanes.c ---- */

/* Lanes from these descriptors on, which stay the caller's. false: there are none. */
bool lanes_open(struct instance *i, int memory, int bell);
void lanes_close(struct instance *i);
/* Whether the daemon put something that was not read. The lock `in` is held. */
bool lanes_hold(const struct instance *i);
/* As recv, with the lock `in` held, and as sendmsg, with the lock `out`: nothing is sent where there is no room for `least`. */
ssize_t lanes_receive(struct instance *i, uint8_t *at, size_t most);
ssize_t lanes_send(struct instance *i, const struct iovec *parts, unsigned count, size_t least);
/* A message was sent. Where the last ones were sent one by one, and each was back at once, the program likely waits for this one,
 * too: it is looked for here, some microseconds at most, so that a poll finds it and does not sleep. The lock `out` is held. */
void lanes_linger(struct instance *i);
/* A dispatch called something. */
void lanes_dispatched(struct instance *i);
/* Whether there is so much room. Where there is not, the bell rings once the daemon took some. The lock `out` is held. */
bool lanes_have_room(struct instance *i, size_t least);
/* Where nothing is left to be read: silences the bell, which rings for what comes from now on. `in_vain`: it may have rung for
 * nothing. The lock `in` is held. Whether something came meanwhile, and was read. */
bool lanes_settle(struct instance *i, bool in_vain);
/* Looks for events until then. Whether there are some. No lock of the stream is held. */
bool lanes_look(struct instance *i, uint64_t end);

/* ---- pieces.c ---- */

/* The message of a frame, or of the pieces that it ends, is handed to the callback. Whether one was called. */
bool pieces_deliver(struct instance *i, const struct cpg_name *name, const struct tell_message *told, uint8_t *data);
void pieces_drop(struct instance *i, uint32_t node, uint32_t pid);
void pieces_free(struct instance *i);
cs_error_t pieces_send(struct instance *i, const struct iovec *parts, unsigned count, size_t len);

/* ---- dispatch.c ---- */

void dispatch_free(struct instance *i);
#endif
