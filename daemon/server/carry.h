/* What a ring leaves to the next one: its members, in their order, and the rules of its groups.
 * Members join the next ring by their own connections, before any rule is there to deny it; rules are the daemon's own.
 * The long names that nobody uses any more are forgotten meanwhile. */
#ifndef CPGRINGD_CARRY_H
#define CPGRINGD_CARRY_H
#include "ring.h"

struct carried {
    struct carried_member *members;
    struct carried_table *tables;
    size_t count_members, count_tables, count_groups;
};

/* Takes down what the ring leaves. false: no memory. */
bool carry_out(struct ring *ring, struct carried *carried);
/* Connects the clients to the ring's new nodes, and puts there what was taken down. A status of cpgring.h. */
uint32_t carry_into(struct ring *ring, const struct carried *carried);
void carry_free(struct carried *carried);
#endif
