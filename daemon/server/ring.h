/* A ring of nodes in this process, and the next one: a ring ends after so many entries or bytes, and its clients, members
 * and rules are taken over, unseen by clients.
 * The loop pumps it; control.c asks it for what operators see. */
#ifndef CPGRINGD_RING_H
#define CPGRINGD_RING_H
#include "gate.h"
#include "options.h"

struct ring {
    struct node nodes[CPGRING_MOST_NODES];
    unsigned count;
    struct gate gate;
    const struct options *options;
    const char *conf, *names; /* kept for the rings to come */
    size_t conf_len, names_len;
    uint32_t number;
    uint32_t carried; /* places that the members and rules of the last ring took */
    unsigned carried_names; /* long names that they have */
    bool ending;      /* no calls are heard, until all that waits is delivered */
    bool end_wanted;  /* by an operator */
    uint64_t renewals, worst_pause, all_pauses; /* in microseconds */
    uint64_t delivered_before;                  /* places of rings that ended */
};

/* Opens the first ring. A status of cpgring.h; `fault` says where a text is at fault. */
uint32_t ring_open(struct ring *ring, const struct options *options, cpgring_fault *fault);
/* Whether the ring should end: so many entries, bytes, connections or new long names. */
bool ring_is_due(const struct ring *ring);
/* Goes on with what a ring's end needs. false: the next ring could not be made. */
bool ring_step(struct ring *ring);
/* Frees a piece of a node of the ring before, where one has no events left for anybody. Whether there is more. */
bool ring_close_old(struct ring *ring);
/* Whether the next step may take long, or the ring before is still to be closed. */
bool ring_takes_long(const struct ring *ring);
void ring_close(struct ring *ring);
/* Places that this ring has left before it ends. */
uint32_t ring_places_left(const struct ring *ring);

uint64_t now_us(void);
#endif
