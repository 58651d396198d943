/* agreement NODES MEMBERS MESSAGES SIZE COMERS: members at all nodes are told the same, in the same order.
 * Each member sends MESSAGES messages of SIZE bytes and more, and makes a sum of all that it is told, messages and changes,
 * up to the last message of the last member. COMERS processes come, speak, go and are killed meanwhile. */
#include "common.h"

enum { MOST = 64, BURST = 20, MOST_SIZE = 1 << 20, QUIET_MS = 60000 };

struct result {
    uint64_t sum, told, changes;
    uint32_t wrong, whole;
};

static struct {
    struct { uint32_t node, pid, next; } first[MOST];
    unsigned members, wanted, done, messages;
    bool all_there;
    struct result result;
} my = {.result.sum = 14695981039346656037u};

static void add(uint32_t word) { my.result.sum = (my.result.sum ^ word) * 1099511628211u; }

static uint8_t byte_at(uint32_t number, size_t k) { return (uint8_t)(number + k); }

static void deliver(cpg_handle_t h, const struct cpg_name *g, uint32_t node, uint32_t pid, void *message, size_t len) {
    const uint8_t *bytes = message;
    uint32_t number = UINT32_MAX;
    (void)h, (void)g;
    if (!my.all_there || my.done == my.wanted) return;
    if (len >= 4) memcpy(&number, bytes, 4);
    my.result.told++;
    add(node), add(pid), add(number), add((uint32_t)len);
    for (size_t k = 4; k < len; k++)
        if (bytes[k] != byte_at(number, k)) {
            my.result.wrong++;
            break;
        }
    for (unsigned k = 0; k < my.wanted; k++) {
        if (my.first[k].node != node || my.first[k].pid != pid) continue;
        if (number != my.first[k].next++) my.result.wrong++;
        if (my.first[k].next == my.messages) my.done++;
    }
}

static void add_all(const struct cpg_address *list, size_t count) {
    for (size_t k = 0; k < count; k++) add(list[k].nodeid), add(list[k].pid), add(list[k].reason);
}

static void change(cpg_handle_t h, const struct cpg_name *g, const struct cpg_address *members, size_t count,
                   const struct cpg_address *left, size_t count_left, const struct cpg_address *joined, size_t count_joined) {
    (void)h, (void)g;
    if (my.done == my.wanted) return;
    if (!my.all_there && count == my.wanted) {
        for (unsigned k = 0; k < my.wanted; k++) my.first[k].node = members[k].nodeid, my.first[k].pid = members[k].pid;
        my.all_there = true;
    } else if (!my.all_there) return;
    add_all(members, count);
    add_all(left, count_left);
    add_all(joined, count_joined);
    my.result.changes++;
}

/* Sends as many as go. false: a call failed. */
static bool send_some(cpg_handle_t h, uint32_t *sent, size_t size) {
    static uint8_t bytes[MOST_SIZE + 500];
    for (int k = 0; k < BURST && *sent < my.messages; k++) {
        size_t len = size + (*sent % 7 == 0 ? *sent % 500 : 0);
        for (size_t at = 4; at < len; at++) bytes[at] = byte_at(*sent, at);
        memcpy(bytes, sent, 4);
        struct iovec part = {bytes, len};
        cs_error_t status = cpg_mcast_joined(h, CPG_TYPE_AGREED, &part, 1);
        if (status == CS_ERR_TRY_AGAIN) return true;
        if (status != CS_OK) return false;
        ++*sent;
    }
    return true;
}

static int be_member(size_t size, int ready, int out) {
    cpg_callbacks_t callbacks = {deliver, change};
    struct cpg_name group = name_of("agreement");
    cpg_handle_t h;
    uint32_t sent = 0;
    uint64_t quiet = now_ms();
    int fd;
    bool told_ready = false;
    if (cpg_initialize(&h, &callbacks) != CS_OK || cpg_join(h, &group) != CS_OK || cpg_fd_get(h, &fd) != CS_OK) return 1;
    while (my.done < my.wanted && now_ms() < quiet + QUIET_MS) {
        uint64_t told = my.result.told;
        struct pollfd p = {fd, POLLIN, 0};
        if (my.all_there && !told_ready) told_ready = write(ready, "r", 1) == 1;
        if (my.all_there && !send_some(h, &sent, size)) return 2;
        poll(&p, 1, my.all_there && sent < my.messages ? 1 : 500);
        if (cpg_dispatch(h, CS_DISPATCH_ALL) != CS_OK) return 3;
        if (my.result.told != told) quiet = now_ms();
    }
    my.result.whole = my.done == my.wanted;
    if (write(out, &my.result, sizeof my.result) != (ssize_t)sizeof my.result) return 4;
    pause_ms(200); /* its end comes behind the others' last messages */
    return cpg_finalize(h) == CS_OK ? 0 : 5;
}

/* Comes, speaks and goes, or is killed, in the middle of a message of pieces, say. */
static int be_comer(unsigned number) {
    cpg_callbacks_t callbacks = {NULL, NULL};
    struct cpg_name group = name_of("agreement");
    static uint8_t bytes[30000];
    size_t len = number % 2 ? sizeof bytes : 100;
    for (unsigned k = 0; k < 4; k++) {
        cpg_handle_t h;
        uint32_t word = 1000000 + number;
        if (cpg_initialize(&h, &callbacks) != CS_OK || cpg_join(h, &group) != CS_OK) return 1;
        for (size_t at = 4; at < len; at++) bytes[at] = byte_at(word, at);
        memcpy(bytes, &word, 4);
        struct iovec part = {bytes, len};
        for (int sent = 0; sent < 5; sent++) cpg_mcast_joined(h, CPG_TYPE_AGREED, &part, 1);
        cpg_dispatch(h, CS_DISPATCH_ALL);
        if (k % 2 == 0) cpg_leave(h, &group);
        cpg_finalize(h);
    }
    return 0;
}

static void run_comers(const char *base, unsigned nodes, unsigned comers) {
    for (unsigned k = 0; k < comers; k++) {
        pid_t pid = fork();
        if (pid == 0) {
            use_node(base, k % nodes + 1);
            _exit(be_comer(k));
        }
        if (k % 3 == 0) {
            pause_ms(k % 7);
            kill(pid, SIGKILL);
        }
        int status = status_of(pid);
        if (status != 0 && status != 128 + SIGKILL) failures++;
    }
}

static void wait_ready(int from, unsigned count) {
    char byte;
    struct pollfd p = {from, POLLIN, 0};
    for (unsigned k = 0; k < count && poll(&p, 1, QUIET_MS) > 0; k++)
        if (read(from, &byte, 1) != 1) return;
}

int main(int count, char **words) {
    int ready[2], out[2];
    if (count != 6 || pipe(ready) != 0 || pipe(out) != 0) return 2;
    unsigned nodes = (unsigned)atoi(words[1]), comers = (unsigned)atoi(words[5]);
    my.wanted = (unsigned)atoi(words[2]), my.messages = (unsigned)atoi(words[3]);
    char base[108];
    snprintf(base, sizeof base, "%s", getenv("CPGRING_SOCKET"));
    pid_t pids[MOST];
    for (unsigned k = 0; k < my.wanted; k++)
        if ((pids[k] = fork()) == 0) {
            use_node(base, k % nodes + 1);
            _exit(be_member((size_t)atoi(words[4]), ready[1], out[1]));
        }
    wait_ready(ready[0], my.wanted);
    run_comers(base, nodes, comers);
    for (unsigned k = 0; k < my.wanted; k++) EXPECT(status_of(pids[k]), 0);
    close(out[1]);
    struct result first = {0}, it;
    for (unsigned k = 0; k < my.wanted; k++) {
        if (read(out[0], &it, sizeof it) != (ssize_t)sizeof it) return finish("agreement: a member has no result"), 1;
        if (k == 0) first = it;
        EXPECT(it.wrong, 0);
        EXPECT(it.whole, 1);
        EXPECT(it.sum == first.sum, 1);
        EXPECT(it.told >= (uint64_t)my.wanted * my.messages, 1);
    }
    printf("agreement: %u members at %u nodes, %llu messages and %llu changes at each: %s\n", my.wanted, nodes,
           (unsigned long long)first.told, (unsigned long long)first.changes, failures ? "NOT the same" : "the same");
    return finish("agreement");
}
