/* The sockets of the nodes: one each, PATH and PATH.K, and a lock beside the first, PATH.lock, held while the daemon runs.
 * Where the lock is free, what stands at the paths is of a daemon that is gone, and is taken over; else it is in use.
 * New connections have their credentials from the kernel; how many there may be is limited here. */
#ifndef CPGRINGD_SOCKETS_H
#define CPGRINGD_SOCKETS_H
#include "ring.h"

struct sockets {
    int listener[CPGRING_MOST_NODES];
    char path[CPGRING_MOST_NODES][128];
    unsigned count;
    int lock, spare;
    bool paused; /* no descriptor is left: nobody is let in until one is */
    char lock_path[128];
};

/* false: the log says why. */
bool sockets_open(struct sockets *s, const struct options *options);
void sockets_close(struct sockets *s);
/* Takes the next connection of a node in. NULL: there is none now, or it was turned away (`*more` then says whether there
 * may be others). */
struct client *sockets_accept(struct sockets *s, struct node *node, unsigned index, bool *more);

/* Reads what came, where less than READ_BELOW bytes wait to be heard. */
enum { MOST_IN = 128 << 10, READ_BELOW = 64 << 10, MOST_LEFT = 8 << 20 };
void client_read(struct client *c);
/* The other end is closed: reads what it left, some MOST_LEFT bytes at most. */
void client_read_out(struct client *c);
/* Writes what is held, as far as the socket takes it. false: it is full. */
bool client_write(struct client *c);
#endif
