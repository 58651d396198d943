/* The loop: sockets, signals and the ring, by epoll; nothing is done and nothing used while nothing comes.
 * Each turn reads, hears, moves frames, tells and writes, in this order, for all clients alike. */
#ifndef CPGRINGD_LOOP_H
#define CPGRINGD_LOOP_H
#include "ring.h"
#include "sockets.h"

/* Goes on until a signal or an operator ends it. The exit status. */
int loop_run(struct ring *ring, struct sockets *sockets, const struct options *options);
/* Blocks the signals that the loop takes. */
bool loop_block_signals(void);
#endif
