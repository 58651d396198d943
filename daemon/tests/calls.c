/* calls: every call of the interface, what it answers where all is well and where it is not, from one process.
 * Big messages go whole up to 16 MiB; names are any bytes; callbacks may make any call; several threads use one handle.
 * A socket of no daemon is CS_ERR_LIBRARY, and nothing waits for ever. */
#include "common.h"
#include <pthread.h>
#include <stdatomic.h>

static struct {
    unsigned messages, changes, totems, members;
    size_t last_len;
    uint64_t sum;
    struct cpg_name last_name;
    uint32_t nodes, last_reason;
} seen;

static uint64_t sum_of(const uint8_t *bytes, size_t len) {
    uint64_t sum = len;
    for (size_t k = 0; k < len; k++) sum = sum * 31 + bytes[k];
    return sum;
}

static void deliver(cpg_handle_t h, const struct cpg_name *g, uint32_t node, uint32_t pid, void *message, size_t len) {
    (void)h, (void)node;
    EXPECT(pid, getpid());
    EXPECT((uintptr_t)message % 8, 0);
    seen.messages++;
    seen.last_len = len;
    seen.sum = sum_of(message, len);
    seen.last_name = *g;
}

static void change(cpg_handle_t h, const struct cpg_name *g, const struct cpg_address *m, size_t count, const struct cpg_address *left,
                   size_t count_left, const struct cpg_address *joined, size_t count_joined) {
    (void)h, (void)m;
    seen.changes++;
    seen.members = (unsigned)count;
    seen.last_name = *g;
    seen.last_reason = count_left ? left[0].reason : count_joined ? joined[0].reason : 0;
}

static void totem(cpg_handle_t h, struct cpg_ring_id id, uint32_t count, const uint32_t *nodes) {
    (void)h;
    EXPECT(id.nodeid, 1);
    for (uint32_t k = 0; k < count; k++) EXPECT(nodes[k], k + 1);
    EXPECT(seen.changes, 1); /* once, after the first change */
    seen.totems++;
    seen.nodes = count;
}

static cpg_handle_t open_one(void) {
    cpg_model_v1_data_t data = {CPG_MODEL_V1, deliver, change, totem, CPG_MODEL_V1_DELIVER_INITIAL_TOTEM_CONF};
    cpg_handle_t h = 0;
    memset(&seen, 0, sizeof seen);
    EXPECT(cpg_model_initialize(&h, CPG_MODEL_V1, (cpg_model_data_t *)(void *)&data, &seen), CS_OK);
    return h;
}

/* Dispatches until so many messages and changes were told, as the descriptor for poll says that there is something to do. */
static void dispatch_until(cpg_handle_t h, unsigned messages, unsigned changes) {
    int fd = -1;
    EXPECT(cpg_fd_get(h, &fd), CS_OK);
    for (uint64_t end = now_ms() + 60000; (seen.messages < messages || seen.changes < changes) && now_ms() < end;) {
        struct pollfd p = {fd, POLLIN, 0};
        EXPECT(poll(&p, 1, 30000), 1);
        EXPECT(cpg_dispatch(h, CS_DISPATCH_ALL), CS_OK);
    }
    EXPECT(seen.messages, messages);
    EXPECT(seen.changes, changes);
}

static cs_error_t send_bytes(cpg_handle_t h, const void *bytes, size_t len) {
    struct iovec part = {(void *)(uintptr_t)bytes, len};
    return cpg_mcast_joined(h, CPG_TYPE_AGREED, &part, 1);
}

static cs_error_t send_surely(cpg_handle_t h, const void *bytes, size_t len) {
    cs_error_t status;
    for (uint64_t end = now_ms() + 60000; (status = send_bytes(h, bytes, len)) == CS_ERR_TRY_AGAIN && now_ms() < end;)
        EXPECT(cpg_dispatch(h, CS_DISPATCH_ALL), CS_OK);
    return status;
}

/* ---- a handle from its beginning to its end ---- */

static void looks(cpg_handle_t h) {
    cpg_flow_control_state_t flow = CPG_FLOW_CONTROL_ENABLED;
    void *context = NULL;
    unsigned node = 0;
    uint32_t most = 0;
    EXPECT(cpg_context_get(h, &context), CS_OK);
    EXPECT(context == &seen, 1);
    EXPECT(cpg_context_set(h, &node), CS_OK);
    EXPECT(cpg_context_get(h, &context), CS_OK);
    EXPECT(context == &node, 1);
    EXPECT(cpg_local_get(h, &node), CS_OK);
    EXPECT(node, 1);
    EXPECT(cpg_max_atomic_msgsize_get(h, &most), CS_OK);
    EXPECT(most, 8192);
    EXPECT(cpg_flow_control_state_get(h, &flow), CS_OK);
    EXPECT(flow, CPG_FLOW_CONTROL_DISABLED);
}

static void plain_calls(void) {
    struct cpg_name group = name_of("calls"), other = name_of("other");
    struct cpg_address list[CPG_MEMBERS_MAX];
    int count = -1;
    cpg_handle_t h = open_one();
    looks(h);
    EXPECT(send_bytes(h, "x", 1), CS_ERR_NOT_EXIST);
    EXPECT(cpg_leave(h, &group), CS_ERR_NOT_EXIST);
    EXPECT(cpg_dispatch(h, CS_DISPATCH_ONE_NONBLOCKING), CS_ERR_TRY_AGAIN);
    EXPECT(cpg_join(h, &group), CS_OK);
    EXPECT(cpg_join(h, &other), CS_ERR_EXIST);
    dispatch_until(h, 0, 1);
    EXPECT(seen.members, 1);
    EXPECT(seen.last_reason, CPG_REASON_JOIN);
    EXPECT(seen.totems, 1);
    EXPECT(cpg_membership_get(h, &group, list, &count), CS_OK);
    EXPECT(count, 1);
    EXPECT(list[0].nodeid, 1);
    EXPECT(list[0].pid, getpid());
    EXPECT(cpg_membership_get(h, &other, list, &count), CS_OK);
    EXPECT(count, 0);
    EXPECT(cpg_leave(h, &group), CS_OK);
    dispatch_until(h, 0, 2);
    EXPECT(seen.members, 0);
    EXPECT(seen.last_reason, CPG_REASON_LEAVE);
    EXPECT(cpg_join(h, &other), CS_OK); /* again, after a leave */
    dispatch_until(h, 0, 3);
    EXPECT(cpg_finalize(h), CS_OK);
    EXPECT(cpg_finalize(h), CS_ERR_BAD_HANDLE);
    EXPECT(cpg_join(h, &group), CS_ERR_BAD_HANDLE);
    EXPECT(send_bytes(h, "x", 1), CS_ERR_BAD_HANDLE);
    EXPECT(cpg_dispatch(h, CS_DISPATCH_ALL), CS_ERR_BAD_HANDLE);
}

static void wrong_words(void) {
    cpg_model_v1_data_t data = {.model = CPG_MODEL_V1, .flags = 2};
    struct cpg_name group = name_of("wrong"), longer = {129, {0}};
    struct iovec part = {"x", 1};
    cpg_iteration_handle_t it;
    cpg_handle_t h;
    EXPECT(cpg_model_initialize(&h, (cpg_model_t)7, NULL, NULL), CS_ERR_INVALID_PARAM);
    EXPECT(cpg_model_initialize(&h, CPG_MODEL_V1, (cpg_model_data_t *)(void *)&data, NULL), CS_ERR_INVALID_PARAM);
    h = open_one();
    EXPECT(cpg_join(h, &longer), CS_ERR_NAME_TOO_LONG);
    EXPECT(cpg_join(h, &group), CS_OK);
    EXPECT(cpg_mcast_joined(h, (cpg_guarantee_t)9, &part, 1), CS_ERR_INVALID_PARAM);
    EXPECT(cpg_dispatch(h, (cs_dispatch_flags_t)9), CS_ERR_INVALID_PARAM);
    EXPECT(cpg_iteration_initialize(h, CPG_ITERATION_ONE_GROUP, NULL, &it), CS_ERR_INVALID_PARAM);
    EXPECT(cpg_iteration_initialize(h, CPG_ITERATION_ALL, &group, &it), CS_ERR_INVALID_PARAM);
    EXPECT(cpg_iteration_next(12345, NULL), CS_ERR_BAD_HANDLE);
    EXPECT(cpg_iteration_finalize(12345), CS_ERR_BAD_HANDLE);
    EXPECT(cpg_finalize(h), CS_OK);
}

/* ---- messages ---- */

static void sizes(void) {
    static const size_t lengths[] = {0, 1, 7, 8, 8175, 8176, 8177, 8191, 8192, 8193, 16352, 100000, 1 << 20, 16 << 20};
    struct cpg_name group = name_of("sizes");
    uint8_t *bytes = malloc((16 << 20) + 1);
    cpg_handle_t h = open_one();
    EXPECT(bytes != NULL && cpg_join(h, &group) == CS_OK, 1);
    for (size_t k = 0; k <= 16 << 20; k++) bytes[k] = (uint8_t)(k * 7 + k / 8176);
    for (unsigned k = 0; k < sizeof lengths / sizeof *lengths; k++) {
        EXPECT(send_surely(h, bytes, lengths[k]), CS_OK);
        dispatch_until(h, k + 1, seen.changes ? seen.changes : 1);
        EXPECT(seen.last_len, lengths[k]);
        EXPECT(seen.sum == sum_of(bytes, lengths[k]), 1);
    }
    unsigned before = seen.messages;
    EXPECT(send_bytes(h, bytes, (16 << 20) + 1), CS_ERR_TOO_BIG);
    /* a message that begins as a piece does, and one in many parts */
    static const uint8_t piece[20] = {0xC9, 'c', 'p', 'g', 0x91, 'p', 'c', 0x0A, 1, 2, 3, 4, 5, 6, 7, 8, 9};
    EXPECT(send_surely(h, piece, sizeof piece), CS_OK);
    dispatch_until(h, before + 1, seen.changes);
    EXPECT(seen.last_len, sizeof piece);
    EXPECT(seen.sum == sum_of(piece, sizeof piece), 1);
    struct iovec parts[1000];
    for (unsigned k = 0; k < 1000; k++) parts[k] = (struct iovec){bytes + 100 * k, 100};
    EXPECT(cpg_mcast_joined(h, CPG_TYPE_FIFO, parts, 1000), CS_OK);
    dispatch_until(h, before + 2, seen.changes);
    EXPECT(seen.sum == sum_of(bytes, 100000), 1);
    void *lent = NULL;
    EXPECT(cpg_zcb_alloc(h, 5000, &lent), CS_OK);
    memset(lent, 3, 5000);
    EXPECT(cpg_zcb_mcast_joined(h, CPG_TYPE_AGREED, lent, 5000), CS_OK);
    dispatch_until(h, before + 3, seen.changes);
    EXPECT(seen.last_len, 5000);
    EXPECT(cpg_zcb_free(h, lent), CS_OK);
    EXPECT(cpg_finalize(h), CS_OK);
    free(bytes);
}

/* With `short` a name whose code is longer than a node's name is refused. */
static void names(bool only_short) {
    struct cpg_name all[6] = {{0, {0}}, name_of("!own"), name_of("50%25"), {3, {' ', 0, '\n'}}, {128, {0}}, {128, {0}}};
    memset(all[4].value, 0xFF, 128);
    memset(all[5].value, 'x', 128);
    for (unsigned k = 0; k < 6; k++) {
        cpg_iteration_handle_t it;
        struct cpg_iteration_description_t at;
        cpg_handle_t h = open_one();
        if (only_short && k == 4) {
            EXPECT(cpg_join(h, &all[k]), CS_ERR_NAME_TOO_LONG);
            EXPECT(cpg_finalize(h), CS_OK);
            continue;
        }
        EXPECT(cpg_join(h, &all[k]), CS_OK);
        dispatch_until(h, 0, 1);
        EXPECT(send_bytes(h, "name", 4), CS_OK);
        dispatch_until(h, 1, 1);
        EXPECT(seen.last_name.length, all[k].length);
        EXPECT(memcmp(seen.last_name.value, all[k].value, all[k].length), 0);
        EXPECT(cpg_iteration_initialize(h, CPG_ITERATION_ALL, NULL, &it), CS_OK);
        bool found = false;
        while (cpg_iteration_next(it, &at) == CS_OK)
            if (at.group.length == all[k].length && !memcmp(at.group.value, all[k].value, at.group.length))
                found = at.nodeid == 1 && at.pid == (uint32_t)getpid();
        EXPECT(found, 1);
        EXPECT(cpg_iteration_finalize(it), CS_OK);
        EXPECT(cpg_iteration_initialize(h, CPG_ITERATION_ONE_GROUP, &all[k], &it), CS_OK);
        EXPECT(cpg_iteration_next(it, &at), CS_OK);
        EXPECT(at.pid, getpid());
        EXPECT(cpg_iteration_next(it, &at), CS_ERR_NO_SECTIONS);
        EXPECT(cpg_iteration_finalize(it), CS_OK);
        EXPECT(cpg_iteration_initialize(h, CPG_ITERATION_NAME_ONLY, NULL, &it), CS_OK);
        EXPECT(cpg_iteration_next(it, &at), CS_OK);
        EXPECT(cpg_iteration_finalize(it), CS_OK);
        EXPECT(cpg_finalize(h), CS_OK);
    }
}

/* ---- calls of callbacks ---- */

static void deliver_and_call(cpg_handle_t h, const struct cpg_name *g, uint32_t node, uint32_t pid, void *message, size_t len) {
    struct cpg_address list[CPG_MEMBERS_MAX];
    struct cpg_name group = *g;
    char copy[64] = {0};
    int count = 0;
    (void)node, (void)pid;
    memcpy(copy, message, len < sizeof copy ? len : sizeof copy);
    EXPECT(cpg_membership_get(h, &group, list, &count), CS_OK);
    EXPECT(count, 1);
    if (++seen.messages == 1) {
        EXPECT(send_bytes(h, "again and again", 15), CS_OK);
        for (uint64_t end = now_ms() + 5000; seen.messages < 2 && now_ms() < end; pause_ms(1)) cpg_dispatch(h, CS_DISPATCH_ALL);
        EXPECT(memcmp(message, copy, len), 0); /* is there still, after a dispatch within */
    } else EXPECT(cpg_finalize(h), CS_OK);
}

static void callbacks(void) {
    cpg_callbacks_t calls = {deliver_and_call, NULL};
    struct cpg_name group = name_of("callbacks");
    cpg_handle_t h;
    memset(&seen, 0, sizeof seen);
    EXPECT(cpg_initialize(&h, &calls), CS_OK);
    EXPECT(cpg_join(h, &group), CS_OK);
    EXPECT(send_bytes(h, "the first", 9), CS_OK);
    EXPECT(cpg_dispatch(h, CS_DISPATCH_BLOCKING), CS_OK); /* until it is finalized */
    EXPECT(seen.messages, 2);
    EXPECT(cpg_finalize(h), CS_ERR_BAD_HANDLE);
}

/* ---- threads ---- */

enum { SENDERS = 3, EACH = 3000, ASKS = 500 };
static cpg_handle_t shared;
static unsigned got_of[SENDERS], wrong;
static atomic_uint got_all;

static void deliver_shared(cpg_handle_t h, const struct cpg_name *g, uint32_t node, uint32_t pid, void *message, size_t len) {
    uint32_t word[2] = {0, 0};
    (void)h, (void)g, (void)node, (void)pid;
    memcpy(word, message, len < sizeof word ? len : sizeof word);
    if (word[0] >= SENDERS || word[1] != got_of[word[0]]++) wrong++; /* each sender's in its order */
    got_all++;
}

static void *send_many(void *which) {
    static uint8_t big[30000];
    uint32_t number = (uint32_t)(uintptr_t)which;
    for (uint32_t k = 0; k < EACH;) {
        uint32_t word[2] = {number, k};
        struct iovec parts[2] = {{word, sizeof word}, {big, k % 50 == 0 ? sizeof big : 20}};
        cs_error_t status = cpg_mcast_joined(shared, CPG_TYPE_AGREED, parts, 2);
        if (status == CS_OK) k++;
        else if (status != CS_ERR_TRY_AGAIN) return (void *)1;
        else pause_ms(1);
    }
    return NULL;
}

static void *ask_many(void *nothing) {
    struct cpg_address list[CPG_MEMBERS_MAX];
    struct cpg_name group = name_of("threads");
    (void)nothing;
    for (unsigned k = 0; k < ASKS; k++) {
        int count = 0;
        if (cpg_membership_get(shared, &group, list, &count) != CS_OK || count != 1) return (void *)1;
    }
    return NULL;
}

static void *dispatch_them(void *nothing) {
    (void)nothing;
    return (void *)(uintptr_t)(cpg_dispatch(shared, CS_DISPATCH_BLOCKING) != CS_OK);
}

static void threads(void) {
    cpg_callbacks_t calls = {deliver_shared, NULL};
    struct cpg_name group = name_of("threads");
    pthread_t dispatcher, asker, senders[SENDERS];
    void *failed;
    EXPECT(cpg_initialize(&shared, &calls), CS_OK);
    EXPECT(cpg_join(shared, &group), CS_OK);
    pthread_create(&dispatcher, NULL, dispatch_them, NULL);
    pthread_create(&asker, NULL, ask_many, NULL);
    for (uintptr_t k = 0; k < SENDERS; k++) pthread_create(&senders[k], NULL, send_many, (void *)k);
    for (unsigned k = 0; k < SENDERS; k++) {
        pthread_join(senders[k], &failed);
        EXPECT(failed == NULL, 1);
    }
    pthread_join(asker, &failed);
    EXPECT(failed == NULL, 1);
    EXPECT(cpg_leave(shared, &group), CS_OK); /* its answer stands behind all messages */
    for (uint64_t end = now_ms() + 60000; got_all < SENDERS * EACH && now_ms() < end;) pause_ms(10);
    EXPECT(cpg_finalize(shared), CS_OK);
    pthread_join(dispatcher, &failed);
    EXPECT(failed == NULL, 1);
    for (unsigned k = 0; k < SENDERS; k++) EXPECT(got_of[k], EACH);
    EXPECT(wrong, 0);
}

static void *dispatch_one(void *nothing) {
    (void)nothing;
    return (void *)(uintptr_t)(cpg_dispatch(shared, CS_DISPATCH_ONE) != CS_OK);
}

/* What a call of another thread reads wakes the dispatch that waits for it: a hundred in some milliseconds each. */
static void wakes(void) {
    cpg_callbacks_t calls = {deliver_shared, NULL};
    struct cpg_name group = name_of("wakes");
    struct cpg_address list[CPG_MEMBERS_MAX];
    uint64_t began = now_ms();
    EXPECT(cpg_initialize(&shared, &calls), CS_OK);
    EXPECT(cpg_join(shared, &group), CS_OK);
    for (unsigned k = 0; k < 100; k++) {
        pthread_t dispatcher;
        void *failed;
        int count = 0;
        pthread_create(&dispatcher, NULL, dispatch_one, NULL);
        EXPECT(send_bytes(shared, "wake", 4), CS_OK);
        for (int ask = 0; ask < 3; ask++) EXPECT(cpg_membership_get(shared, &group, list, &count), CS_OK);
        pthread_join(dispatcher, &failed);
        EXPECT(failed == NULL, 1);
    }
    EXPECT(now_ms() - began < 20000, 1);
    EXPECT(cpg_finalize(shared), CS_OK);
}

/* ---- one connection after the other ---- */

/* What an ended connection asked, and its end, come before the next join of its process, which is let in. */
static void comes_back(void) {
    enum { ASKS = 1000, LONG = 100 }; /* more than are heard at once */
    static uint8_t asks[ASKS][sizeof(struct head) + LONG];
    const struct head head = {LONG, ASK_SEND, 0};
    const struct { struct head head; uint32_t words[2]; } hello = {{8, ASK_HELLO, 0}, {PROTOCOL_VERSION, 0}};
    for (unsigned k = 0; k < ASKS; k++) memcpy(asks[k], &head, sizeof head);
    for (unsigned k = 0; k < 20; k++) {
        int fd = raw_dial();
        EXPECT(send(fd, &hello, sizeof hello, MSG_NOSIGNAL), sizeof hello);
        EXPECT(raw_ask(fd, ASK_JOIN, "back", 4), CS_OK); /* it does not wait to be greeted */
        EXPECT(send(fd, asks, sizeof asks, MSG_NOSIGNAL), sizeof asks);
        close(fd);
    }
}

static void count_one(cpg_handle_t h, const struct cpg_name *g, uint32_t node, uint32_t pid, void *message, size_t len) {
    (void)h, (void)g, (void)node, (void)pid, (void)message, (void)len;
    seen.messages++;
}

/* Joins, sends so many messages, and is gone before it reads any. */
static int speak_and_go(unsigned count) {
    enum { LONG = 100 };
    const struct head head = {LONG, ASK_SEND, 0};
    uint8_t ask[sizeof head + LONG] = {0};
    memcpy(ask, &head, sizeof head);
    int fd = raw_dial();
    if (raw_greet(fd) != CS_OK || raw_ask(fd, ASK_JOIN, "last", 4) != CS_OK) return 1;
    for (unsigned k = 0; k < count; k++)
        if (send(fd, ask, sizeof ask, MSG_NOSIGNAL) != (ssize_t)sizeof ask) return 2;
    return 0;
}

/* Whoever ends while it is told of others' messages, and its own: all that it sent is delivered before its end. */
static void last_words(void) {
    enum { ROUNDS = 20, WORDS = 1000 };
    cpg_model_v1_data_t data = {CPG_MODEL_V1, count_one, change, NULL, 0};
    struct cpg_name group = name_of("last");
    cpg_handle_t h;
    memset(&seen, 0, sizeof seen);
    EXPECT(cpg_model_initialize(&h, CPG_MODEL_V1, (cpg_model_data_t *)(void *)&data, NULL), CS_OK);
    EXPECT(cpg_join(h, &group), CS_OK);
    for (unsigned k = 0; k < ROUNDS; k++) {
        pid_t pid = fork();
        if (pid == 0) _exit(speak_and_go(WORDS));
        EXPECT(status_of(pid), 0);
        dispatch_until(h, (k + 1) * WORDS, 2 * k + 3);
        EXPECT(seen.last_reason, CPG_REASON_PROCDOWN);
    }
    EXPECT(cpg_finalize(h), CS_OK);
}

/* ---- no daemon, and one that says nothing ---- */

static void no_daemon(void) {
    char before[200];
    cpg_handle_t h;
    snprintf(before, sizeof before, "%s", getenv("CPGRING_SOCKET"));
    setenv("CPGRING_SOCKET", "/nonexistent/socket", 1);
    EXPECT(cpg_initialize(&h, NULL), CS_ERR_LIBRARY);
    struct sockaddr_un at = {.sun_family = AF_UNIX};
    snprintf(at.sun_path, sizeof at.sun_path, "%.90s.mute", before);
    int fd = socket(AF_UNIX, SOCK_STREAM, 0);
    unlink(at.sun_path);
    EXPECT(bind(fd, (struct sockaddr *)&at, sizeof at) == 0 && listen(fd, 5) == 0, 1);
    setenv("CPGRING_SOCKET", at.sun_path, 1);
    setenv("CPGRING_WAIT", "300", 1);
    uint64_t began = now_ms();
    EXPECT(cpg_initialize(&h, NULL), CS_ERR_TIMEOUT);
    int waiting[16];
    for (unsigned k = 0; k < 16; k++) { /* more than the listener has room for */
        waiting[k] = socket(AF_UNIX, SOCK_STREAM | SOCK_NONBLOCK, 0);
        if (connect(waiting[k], (struct sockaddr *)&at, sizeof at) != 0) EXPECT(errno, EAGAIN);
    }
    EXPECT(cpg_initialize(&h, NULL), CS_ERR_TRY_AGAIN);
    EXPECT(now_ms() - began < 10000, 1);
    for (unsigned k = 0; k < 16; k++) close(waiting[k]);
    unsetenv("CPGRING_WAIT");
    close(fd);
    EXPECT(cpg_initialize(&h, NULL), CS_ERR_LIBRARY);
    unlink(at.sun_path);
    setenv("CPGRING_SOCKET", before, 1);
    setenv("CPGRING_LIKE_COROSYNC", "1", 1);
    h = open_one();
    EXPECT(send_bytes(h, "x", 1), CS_OK); /* and dropped */
    EXPECT(cpg_finalize(h), CS_OK);
    unsetenv("CPGRING_LIKE_COROSYNC");
}

int main(int count, char **words) {
    plain_calls();
    wrong_words();
    sizes();
    names(count == 2 && !strcmp(words[1], "short"));
    callbacks();
    threads();
    wakes();
    comes_back();
    last_words();
    no_daemon();
    return finish("calls");
}
