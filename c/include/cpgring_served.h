/* cpgring: one node with its clients, from a client's bytes to a client's bytes, for C and C++.
 *
 * A program that serves clients over streams moves their bytes, and says who comes and who goes. All that lies between is
 * here: a client's asks become calls of its own connection, the node takes them in turn, and its answers and events become
 * the client's bytes. That each client is sent its answers and its inbox, in order, and that nothing which another sends
 * changes it but through the ring's records, is proved of these calls. What clients and the node say to each other is in
 * daemon/protocol.h. The ring has one node.
 *
 *     cpgring_served_arrive    for each client that comes, with what the kernel says of its process
 *     cpgring_served_hear      for its bytes, behind those that were not heard yet
 *     cpgring_served_settle    then the ring turns until nothing moves, and each client is told all
 *     cpgring_served_output    for each client: what it is to be written; and then cpgring_served_wrote
 *     cpgring_served_lost      for who is gone, or is to go
 *     cpgring_served_renew     before the ring's places are used up: the next ring, of which no client is told
 *
 * What cpgring.h says of statuses, ownership, pointers and threads holds here, too: a handle starts as CPGRING_SERVED_INIT.
 */
#ifndef CPGRING_SERVED_H
#define CPGRING_SERVED_H

#include <cpgring.h>
#ifdef __cplusplus
extern "C" {
#endif

/* A node with its clients, or none. */
typedef struct cpgring_served {
    bool live;
    void *node;
} cpgring_served;

/* A handle that is not open. */
#define CPGRING_SERVED_INIT { false, NULL }

/* Why no more of a client's bytes was heard. */
enum {
    CPGRING_HEARD_ALL = 0,     /* less than a whole ask is left */
    CPGRING_HEARD_BROKEN = 1,  /* what is left begins no ask: the client is to go */
    CPGRING_HEARD_FULL = 2,    /* 256 calls wait at the node: settle, and then hear the rest */
    CPGRING_HEARD_NO_MEMORY = 3 /* there was no memory for the next ask, which was not heard */
};

/* Opens the node of that setup, as cpgring_open_conf does. What it answers. */
uint32_t cpgring_served_open(cpgring_served *handle, const cpgring_setup *setup, const uint8_t *names, size_t names_len,
                             const uint8_t *conf, size_t conf_len, cpgring_fault *fault);

/* Closes a handle, and gives all its memory back. CPGRING_CLOSED where it is not open. */
uint32_t cpgring_served_close(cpgring_served *handle);

/* Takes a client in, and tells its connection's number, from 1. CPGRING_ACCESS, CPGRING_CONNECTIONS_FULL, CPGRING_MEMORY. */
uint32_t cpgring_served_arrive(cpgring_served *handle, uint32_t pid, uint32_t uid, uint32_t gid, uint16_t *conn);

/* Hears a client's bytes: its asks are done in order, as far as they are whole and the node takes them. Tells how many bytes
 * were heard, and why no more; those that were not are brought again, with what follows them. CPGRING_NO_CONNECTION. */
uint32_t cpgring_served_hear(cpgring_served *handle, uint16_t conn, const uint8_t *bytes, size_t len, size_t *heard, uint32_t *why);

/* Ends a client's connection, behind its calls. What it was told and is not written is dropped. CPGRING_NO_CONNECTION,
 * CPGRING_MEMORY. */
uint32_t cpgring_served_lost(cpgring_served *handle, uint16_t conn);

/* The ring turns by itself until nothing waits and all is delivered, and each client is told all. CPGRING_RING_END where places
 * or hops are used up; CPGRING_MEMORY: what is left is done by a later call, and nothing is lost or told twice. */
uint32_t cpgring_served_settle(cpgring_served *handle);

/* Lends what a client is to be written, until any other call of this handle: where its bytes stand, NULL where there are none,
 * and how many there are. 0 bytes where there never was such a client. */
uint32_t cpgring_served_output(cpgring_served *handle, uint16_t conn, const uint8_t **bytes, size_t *len);

/* The first `count` bytes of a client's output were written to it. CPGRING_RANGE where it has not so many. */
uint32_t cpgring_served_wrote(cpgring_served *handle, uint16_t conn, size_t count);

/* Tells how many connections were given out in this ring, and how many of its places were delivered. */
uint32_t cpgring_served_reached(cpgring_served *handle, size_t *connections, uint32_t *places);

/* Begins the next ring of that setup, with whom that conf text lets in: the ring comes to rest, as by cpgring_served_settle, and
 * the next one has the same members and rules, each in their order. Hands over the new number of each connection that was given
 * out: numbers[n - 1] is that of connection n, 0 where it ended. CPGRING_SPACE where there are fewer numbers than connections;
 * what cpgring_served_open answers, and then CPGRING_RING_END where places are too few, CPGRING_ACCESS where an open connection
 * is not let in, CPGRING_CONNECTIONS_FULL where 65,535 are open: the ring goes on, as after cpgring_served_settle, and no
 * number is written. */
uint32_t cpgring_served_renew(cpgring_served *handle, const cpgring_setup *setup, const uint8_t *names, size_t names_len,
                              const uint8_t *conf, size_t conf_len, cpgring_fault *fault, uint16_t *numbers, size_t count);

#ifdef __cplusplus
}
static_assert(sizeof(cpgring_served) == 16 && offsetof(cpgring_served, node) == 8, "the layout of a handle");
#else
_Static_assert(sizeof(cpgring_served) == 16 && offsetof(cpgring_served, node) == 8, "the layout of a handle");
#endif
#endif
