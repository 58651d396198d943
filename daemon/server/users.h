/* Users who have connections, and what they hold together: so that one user can't starve another.
 * Connections that did not greet yet stand in one list, the oldest first.
 * All nodes of the process count together. */
#ifndef CPGRINGD_USERS_H
#define CPGRINGD_USERS_H
#include "node.h"

/* The user of that number, who is made where there is none. NULL: no memory. */
struct user *user_get(uint32_t uid);
/* Forgets a user who has no connections any more, and no calls that wait. */
void user_put(struct user *user);
/* A call of that user at that node, from 0, came to its place. */
void user_call_placed(uint32_t uid, unsigned node);

void user_ungreeted_add(struct client *c);
void user_ungreeted_drop(struct client *c);
/* The oldest connection that did not greet, of that user, or of any where NULL. */
struct client *user_ungreeted_oldest(const struct user *user);

/* Ends the client of the user who is most behind; `c` where no other is. */
void user_end_worst(const struct user *user, struct client *c);

/* All nodes of the process, for who looks at all clients. */
extern struct node *user_nodes;
extern unsigned user_count_nodes;
#endif
