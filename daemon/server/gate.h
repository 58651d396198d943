/* The gate of fates: how frames come from node to node of this process, in memory.
 * Each frame on its way to a node is lost, brought or brought twice, by a generator that a seed starts; pairs of nodes can
 * be cut, and nodes held, which then hear nothing until they are let. Where a token is lost, its sender sends it again. */
#ifndef CPGRINGD_GATE_H
#define CPGRINGD_GATE_H
#include "node.h"

enum { MOST_HELD_FRAMES = 4096 };

struct held_frame {
    struct held_frame *next;
    size_t len;
    uint8_t at[];
};

struct gate {
    struct node *nodes;
    unsigned count;
    unsigned lose, repeat; /* of 100 frames */
    uint64_t random;       /* the generator's state */
    bool held[CPGRING_MOST_NODES];
    bool cut[CPGRING_MOST_NODES][CPGRING_MOST_NODES];
    struct held_frame *first[CPGRING_MOST_NODES], **last[CPGRING_MOST_NODES]; /* frames that wait for a held node */
    unsigned waiting[CPGRING_MOST_NODES];
    uint8_t token[CPGRING_MOST_FRAME];
    size_t token_len;           /* 0: it was lost, or none was made yet */
    unsigned token_to, token_from;
    uint64_t frames, lost, repeated, visits;
    uint32_t fault;             /* CPGRING_RING_END, or CPGRING_MEMORY: to be tried again */
};

void gate_open(struct gate *gate, struct node *nodes, unsigned count, uint64_t seed);
/* Forgets the token and the frames on their way, as a new ring begins. Holds and cuts stay. */
void gate_forget(struct gate *gate);

void gate_hold(struct gate *gate, unsigned node);
void gate_let(struct gate *gate, unsigned node);

/* Moves the token for so many visits at most, and delivers, until every node has delivered all and nothing waits.
 * Whether there is more to do at once. */
bool gate_pump(struct gate *gate, unsigned visits);

/* The node that the token visits next, from 0. */
unsigned gate_next(const struct gate *gate);

/* Whether nothing waits at any node, and all have delivered the same places. */
bool gate_settled(const struct gate *gate);
#endif
