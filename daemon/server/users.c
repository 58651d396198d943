/* Users who have connections; see users.h.
 * There are as many as different users connect, so a list that is searched does.
 * The client who is most behind is looked for only where a user's limit is passed. */
#include "users.h"
#include <stdlib.h>

struct node *user_nodes;
unsigned user_count_nodes;
static struct user *users;
static struct client *first_ungreeted, *last_ungreeted;

struct user *user_get(uint32_t uid) {
    struct user *user = users;
    while (user && user->uid != uid) user = user->next;
    if (user) return user;
    if (!(user = calloc(1, sizeof *user))) return NULL;
    user->uid = uid;
    user->next = users;
    users = user;
    return user;
}

void user_put(struct user *user) {
    if (user->connections > 0) return;
    for (unsigned k = 0; k < CPGRING_MOST_NODES; k++)
        if (user->waiting[k] > 0) return;
    struct user **at = &users;
    while (*at != user) at = &(*at)->next;
    *at = user->next;
    free(user);
}

void user_call_placed(uint32_t uid, unsigned node) {
    struct user *user = users;
    while (user && user->uid != uid) user = user->next;
    if (!user || user->waiting[node] == 0) return; /* of the daemon's own, as those of a ring's begin are */
    user->waiting[node]--;
    user_put(user);
}

void user_ungreeted_add(struct client *c) {
    c->next_ungreeted = NULL;
    c->previous_ungreeted = last_ungreeted;
    *(last_ungreeted ? &last_ungreeted->next_ungreeted : &first_ungreeted) = c;
    last_ungreeted = c;
    c->user->ungreeted++;
}

void user_ungreeted_drop(struct client *c) {
    *(c->previous_ungreeted ? &c->previous_ungreeted->next_ungreeted : &first_ungreeted) = c->next_ungreeted;
    *(c->next_ungreeted ? &c->next_ungreeted->previous_ungreeted : &last_ungreeted) = c->previous_ungreeted;
    c->user->ungreeted--;
}

struct client *user_ungreeted_oldest(const struct user *user) {
    struct client *c = first_ungreeted;
    while (c && (c->end != END_NOT || (user && c->user != user))) c = c->next_ungreeted;
    return c;
}

void user_end_worst(const struct user *user, struct client *c) {
    struct client *worst = c;
    for (unsigned k = 0; k < user_count_nodes; k++)
        for (struct client *it = user_nodes[k].clients; it; it = it->next)
            if (it->user == user && it->end == END_NOT && it->counted > worst->counted) worst = it;
    client_end(worst, END_BEHIND);
}
