/* behind UNREAD: a member that never reads is ended once it is UNREAD bytes behind, and is told down to its group.
 * The daemon is run with --unread=UNREAD. Who sends is never held up by it: each send ends within some time.
 * Who sends is told all of it meanwhile. */
#include "common.h"

static uint32_t silent_pid, ended_reason;
static uint64_t got;

static void deliver(cpg_handle_t h, const struct cpg_name *g, uint32_t node, uint32_t pid, void *message, size_t len) {
    (void)h, (void)g, (void)node, (void)pid, (void)message, (void)len;
    got++;
}

static void change(cpg_handle_t h, const struct cpg_name *g, const struct cpg_address *m, size_t count, const struct cpg_address *left,
                   size_t count_left, const struct cpg_address *j, size_t count_joined) {
    (void)h, (void)g, (void)m, (void)count, (void)j, (void)count_joined;
    for (size_t k = 0; k < count_left; k++)
        if (left[k].pid == silent_pid) ended_reason = left[k].reason;
}

/* A process that joins and does not read; it ends when it is killed. */
static pid_t start_silent(void) {
    pid_t pid = fork();
    if (pid != 0) return pid;
    int fd = raw_dial();
    if (fd < 0 || raw_greet(fd) != CS_OK || raw_ask(fd, ASK_JOIN, "behind", 6) != CS_OK) _exit(1);
    for (;;) pause();
}

int main(int count, char **words) {
    static uint8_t bytes[8192];
    cpg_callbacks_t callbacks = {deliver, change};
    struct cpg_name group = name_of("behind");
    cpg_handle_t h;
    if (count != 2) return 2;
    uint64_t limit = (uint64_t)atoll(words[1]), sent = 0, worst = 0;
    EXPECT(cpg_initialize(&h, &callbacks), CS_OK);
    EXPECT(cpg_join(h, &group), CS_OK);
    silent_pid = (uint32_t)start_silent();
    struct cpg_address list[CPG_MEMBERS_MAX];
    int members = 0;
    for (uint64_t end = now_ms() + 30000; members < 2 && now_ms() < end; pause_ms(5))
        EXPECT(cpg_membership_get(h, &group, list, &members), CS_OK);
    EXPECT(members, 2);
    for (uint64_t end = now_ms() + 60000; !ended_reason && now_ms() < end && sent < 4 * limit + (8 << 20);) {
        struct iovec part = {bytes, sizeof bytes};
        uint64_t before = now_ms();
        cs_error_t status = cpg_mcast_joined(h, CPG_TYPE_AGREED, &part, 1);
        if (status == CS_OK) sent += sizeof bytes;
        else EXPECT(status, CS_ERR_TRY_AGAIN);
        EXPECT(cpg_dispatch(h, CS_DISPATCH_ALL), CS_OK);
        if (now_ms() - before > worst) worst = now_ms() - before;
    }
    EXPECT(ended_reason, CPG_REASON_PROCDOWN);
    EXPECT(sent >= limit, 1); /* not before it is so far behind */
    EXPECT(worst < 5000, 1);
    for (uint64_t end = now_ms() + 30000; got * sizeof bytes < sent && now_ms() < end; pause_ms(1))
        EXPECT(cpg_dispatch(h, CS_DISPATCH_ALL), CS_OK);
    EXPECT(got * sizeof bytes, sent);
    kill((pid_t)silent_pid, SIGKILL);
    status_of((pid_t)silent_pid);
    EXPECT(cpg_finalize(h), CS_OK);
    printf("behind: ended after %llu bytes\n", (unsigned long long)sent);
    return finish("behind");
}
