/* many PROCESSES HANDLES: PROCESSES * HANDLES joined clients at once, each group with one of each process.
 * Each sends one message to its group, and is told the messages of all its members, once each.
 * All wait for each other, so that all are joined at one time. */
#include "common.h"

enum { MOST_HANDLES = 512, LIMIT_MS = 180000 };

static unsigned handles, processes;
static cpg_handle_t of[MOST_HANDLES];
static unsigned told[MOST_HANDLES], members[MOST_HANDLES];

static unsigned index_of(cpg_handle_t h) {
    unsigned k = 0;
    while (k < handles && of[k] != h) k++;
    return k;
}

static void deliver(cpg_handle_t h, const struct cpg_name *g, uint32_t node, uint32_t pid, void *message, size_t len) {
    unsigned k = index_of(h), said;
    (void)g, (void)node, (void)pid;
    memcpy(&said, message, len < sizeof said ? len : sizeof said);
    EXPECT(said, k); /* none of another group's */
    if (k < handles) told[k]++;
}

static void change(cpg_handle_t h, const struct cpg_name *g, const struct cpg_address *m, size_t count, const struct cpg_address *l,
                   size_t count_left, const struct cpg_address *j, size_t count_joined) {
    unsigned k = index_of(h);
    (void)g, (void)m, (void)l, (void)count_left, (void)j, (void)count_joined;
    if (k < handles) members[k] = (unsigned)count;
}

static bool all_are(const unsigned *counts) {
    for (unsigned k = 0; k < handles; k++)
        if (counts[k] < processes) return false;
    return true;
}

static void dispatch_until(const unsigned *counts) {
    for (uint64_t end = now_ms() + LIMIT_MS; !all_are(counts) && now_ms() < end; pause_ms(1))
        for (unsigned k = 0; k < handles; k++) EXPECT(cpg_dispatch(of[k], CS_DISPATCH_ALL), CS_OK);
}

static int be_one(void) {
    cpg_callbacks_t callbacks = {deliver, change};
    for (unsigned k = 0; k < handles; k++) {
        char text[32];
        snprintf(text, sizeof text, "many-%u", k);
        struct cpg_name group = name_of(text);
        EXPECT(cpg_initialize(&of[k], &callbacks), CS_OK);
        EXPECT(cpg_join(of[k], &group), CS_OK);
    }
    dispatch_until(members);
    for (unsigned k = 0; k < handles; k++) {
        struct iovec part = {&k, sizeof k};
        EXPECT(members[k], processes);
        EXPECT(cpg_mcast_joined(of[k], CPG_TYPE_AGREED, &part, 1), CS_OK);
    }
    dispatch_until(told);
    for (unsigned k = 0; k < handles; k++) EXPECT(told[k], processes);
    pause_ms(200);
    for (unsigned k = 0; k < handles; k++) EXPECT(cpg_finalize(of[k]), CS_OK);
    return finish("many");
}

int main(int count, char **words) {
    pid_t pids[MOST_HANDLES];
    if (count != 3) return 2;
    raise_descriptors();
    processes = (unsigned)atoi(words[1]), handles = (unsigned)atoi(words[2]);
    if (processes > 128 || handles > MOST_HANDLES) return 2;
    uint64_t began = now_ms();
    for (unsigned k = 0; k < processes; k++)
        if ((pids[k] = fork()) == 0) _exit(be_one());
    for (unsigned k = 0; k < processes; k++) EXPECT(status_of(pids[k]), 0);
    printf("many: %u clients in %llu ms\n", processes * handles, (unsigned long long)(now_ms() - began));
    return finish("many");
}
