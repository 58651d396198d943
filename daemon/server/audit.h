/* The audit: each place of a ring as a line of JSON, with what was decided and what that rests on.
 * `--audit=DIR` has a file for each ring, ring-N.jsonl, which grows as places are delivered; control.c tells places.
 * Where a line can't be written (a full disk), that file ends at a whole line, and the log says so. */
#ifndef CPGRINGD_AUDIT_H
#define CPGRINGD_AUDIT_H
#include "ring.h"

/* Puts the line of a delivered place behind what is there. false: no such place, or no memory. */
bool audit_line(struct node *node, uint32_t place, struct bytes *to);

/* Appends the places that were delivered since; `all` writes what is still kept in memory, too. */
void audit_follow(struct ring *ring, bool all);
void audit_ring_begins(struct ring *ring);
void audit_ring_ends(struct ring *ring);
#endif
