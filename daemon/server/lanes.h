/* The daemon's ends of its clients' lanes (../lane.h), which stand in for their sockets.
 * A client that rang is hot: its lanes are looked at in each turn, until it says nothing for a while or the daemon sleeps; then
 * it rings again. What a client writes into its memory ends at most that client. */
#ifndef CPGRINGD_LANES_H
#define CPGRINGD_LANES_H
#include "../lane.h"
#include "node.h"

struct lanes {
    void *memory;
    struct lane up, down;
    int bell;                    /* writing end of the pipe that rings the client */
    unsigned hot_at, idle_looks; /* hot_at: 1 more than its place among the hot ones; 0: it is not hot */
    struct client *next_told;    /* of those that were told something, and may have to be rung */
    bool is_told;
};

/* Gives the client lanes, together with the answer to its greeting, where it is among those of its user that may have them and
 * there is memory and a descriptor; else it goes on by its socket. */
void lanes_give(struct client *c);
void lanes_free(struct client *c);
/* Takes up to `most` bytes that the client put. Whether there were any. */
bool lanes_read(struct client *c, size_t most);
/* Writes what is held, as far as there is room. false: there is none left. */
bool lanes_write(struct client *c);
/* Rings those who sleep over what was written. */
void lanes_ring(void);
/* It is looked at from now on. */
void lanes_heat(struct client *c);
/* Whether there is something in the lanes for the daemon to do: bytes that it may take, or room that it waits for. */
bool lanes_have_work(const struct client *c);
/* Looks at all hot ones, and takes what they put. Whether there is something to do. */
bool lanes_look(void);
/* None is hot any more: all are to ring. false: there is something to do for one that did not. */
bool lanes_sleep(void);
#endif
