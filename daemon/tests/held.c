/* held CTL: connections that end and come again, and rings that end, while a node is held; CTL is cpgringctl.
 * Of each round an observer at node 1 is told the same: the earlier connection's join, its messages and its end, and then the
 * join of the later one of the same process, its message and its leaving.
 * The daemon runs with two nodes. What is done while node 2 is held, and in which order, is drawn from the round's number. */
#include "common.h"

enum { ROUNDS = 32, MESSAGES = 3, MOST_SEEN = 64 };

static const char *ctl;
static char seen[MOST_SEEN + 1];
static unsigned count_seen;

static void note(char what) {
    if (count_seen < MOST_SEEN) seen[count_seen++] = what;
}

static bool is_ours(uint32_t node, uint32_t pid) { return node == 2 && pid == (uint32_t)getpid(); }

static void deliver(cpg_handle_t h, const struct cpg_name *g, uint32_t node, uint32_t pid, void *message, size_t len) {
    (void)h, (void)g;
    if (is_ours(node, pid)) note(len == 1 ? *(char *)message : '?');
}

static void change(cpg_handle_t h, const struct cpg_name *g, const struct cpg_address *m, size_t count, const struct cpg_address *left,
                   size_t count_left, const struct cpg_address *joined, size_t count_joined) {
    (void)h, (void)g, (void)m, (void)count;
    for (size_t k = 0; k < count_left; k++)
        if (is_ours(left[k].nodeid, left[k].pid)) note(left[k].reason == CPG_REASON_PROCDOWN ? 'D' : left[k].reason == CPG_REASON_LEAVE ? 'L' : '?');
    for (size_t k = 0; k < count_joined; k++)
        if (is_ours(joined[k].nodeid, joined[k].pid)) note('J');
}

static void control(const char *words) {
    char line[400];
    snprintf(line, sizeof line, "%s -w 60 %s", ctl, words);
    EXPECT(system(line), 0);
}

static void put(int fd, uint16_t kind, const void *body, uint32_t len) {
    struct head head = {len, kind, 9};
    uint8_t out[sizeof head + 128];
    memcpy(out, &head, sizeof head);
    if (len) memcpy(out + sizeof head, body, len);
    EXPECT(send(fd, out, sizeof head + len, MSG_NOSIGNAL), sizeof head + len);
}

/* The status of the next answer of that kind; events are left out. */
static uint32_t next_answer(int fd, uint16_t kind) {
    struct head head;
    uint8_t in[4096];
    uint32_t status = 0;
    do {
        if (recv(fd, &head, sizeof head, MSG_WAITALL) != (ssize_t)sizeof head || head.len > sizeof in) return 0;
        if (recv(fd, in, head.len, MSG_WAITALL) != (ssize_t)head.len) return 0;
    } while (head.kind != (kind | ANSWER));
    memcpy(&status, in, sizeof status);
    return status;
}

static int dial_and_greet(void) {
    int fd = raw_dial();
    EXPECT(fd >= 0, 1);
    EXPECT(raw_greet(fd), CS_OK);
    return fd;
}

/* The earlier connection's messages and end, and the later one's join, with ends of rings between where the bits say so. */
static int while_held(unsigned bits, int earlier) {
    if (bits & 1) control("renew");
    for (int k = 0; k < MESSAGES; k++) put(earlier, ASK_SEND, "m", 1);
    if (bits & 2) control("renew");
    if (bits & 4) pause_ms(20); /* they are heard, or stay in the socket */
    close(earlier);
    int later = dial_and_greet();
    put(later, ASK_JOIN, "held", 4);
    if (bits & 8) control("renew");
    return later;
}

static void expect_seen(cpg_handle_t h, const char *wanted) {
    int fd = -1;
    EXPECT(cpg_fd_get(h, &fd), CS_OK);
    for (uint64_t end = now_ms() + 60000; count_seen < strlen(wanted) && now_ms() < end;) {
        struct pollfd p = {fd, POLLIN, 0};
        poll(&p, 1, 1000);
        EXPECT(cpg_dispatch(h, CS_DISPATCH_ALL), CS_OK);
    }
    seen[count_seen] = 0;
    if (strcmp(seen, wanted) != 0) fprintf(stderr, "held: told %s, and not %s\n", seen, wanted);
    EXPECT(strcmp(seen, wanted), 0);
    count_seen = 0;
}

static void one_round(unsigned bits, cpg_handle_t observer) {
    int earlier = dial_and_greet();
    EXPECT(raw_ask(earlier, ASK_JOIN, "held", 4), CS_OK);
    control("hold 2");
    int later = while_held(bits, earlier);
    if (bits & 16) { /* a ring ends while the later one's join waits, and another one soon after */
        control("let 2");
        control("renew");
    } else control("let 2");
    EXPECT(next_answer(later, ASK_JOIN), CS_OK);
    put(later, ASK_SEND, "n", 1);
    EXPECT(raw_ask(later, ASK_LEAVE, NULL, 0), CS_OK);
    close(later);
    expect_seen(observer, "JmmmDJnL");
}

int main(int count, char **words) {
    cpg_callbacks_t callbacks = {deliver, change};
    struct cpg_name group = name_of("held");
    cpg_handle_t observer;
    char base[108];
    if (count != 2) return 2;
    ctl = words[1];
    snprintf(base, sizeof base, "%s", getenv("CPGRING_SOCKET"));
    EXPECT(cpg_initialize(&observer, &callbacks), CS_OK);
    EXPECT(cpg_join(observer, &group), CS_OK);
    for (unsigned k = 0; k < ROUNDS && !failures; k++) {
        use_node(base, 2);
        one_round(k, observer);
        if (failures) fprintf(stderr, "held: round %u\n", k);
    }
    EXPECT(cpg_finalize(observer), CS_OK);
    return finish("held");
}
