/* What operators ask by cpgringctl: a line of words, answered by text and a status.
 * For user 0 and the daemon's own user alone; what it shows is the daemon's view, which no rule denies.
 * Rules are inserted and removed by asks of their own, which the node judges by the asker's rights. */
#ifndef CPGRINGD_CONTROL_H
#define CPGRINGD_CONTROL_H
#include "ring.h"

/* The ring that operators see. */
void control_open(struct ring *ring);
void control_hear(struct client *c, const struct head *head, const uint8_t *body);
/* Goes on with an audit that is being told, as far as there is room. */
void control_go_on(struct client *c);
/* The ring ends: audits that are being told end with it. */
void control_ring_ends(struct ring *ring);
/* Whether an operator asked for the daemon's end. */
bool control_stop(void);
#endif
