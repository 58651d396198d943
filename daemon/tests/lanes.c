/* Lanes and looking before sleep. What it does is its first word:
 * lanes descriptor: the descriptor for poll is readable where a dispatch would call something, and only there but for a ring that
 *   comes late; no event is slept over, by several threads of one handle neither. A handle goes on without lanes where no
 *   descriptor is left for them.
 * lanes rest PID: the daemon takes no time once traffic has stopped, and is woken by nothing.
 * lanes hostile SECONDS SEED: clients that write whatever they like into their memory. What that did to others is seen by the test
 *   that runs beside. */
#include "../lane.h"
#include "common.h"
#include <fcntl.h>
#include <pthread.h>
#include <sys/mman.h>

static unsigned delivered;

static void deliver(cpg_handle_t h, const struct cpg_name *g, uint32_t node, uint32_t pid, void *message, size_t len) {
    (void)h, (void)g, (void)node, (void)pid, (void)message, (void)len;
    delivered++;
}

static void change(cpg_handle_t h, const struct cpg_name *g, const struct cpg_address *m, size_t count, const struct cpg_address *l,
                   size_t left, const struct cpg_address *j, size_t joined) {
    (void)h, (void)g, (void)m, (void)count, (void)l, (void)left, (void)j, (void)joined;
}

static int join(cpg_handle_t *h, const char *group) {
    cpg_callbacks_t callbacks = {deliver, change};
    struct cpg_name name = name_of(group);
    int fd = -1;
    EXPECT(cpg_initialize(h, &callbacks), CS_OK);
    EXPECT(cpg_join(*h, &name), CS_OK);
    EXPECT(cpg_fd_get(*h, &fd), CS_OK);
    EXPECT(cpg_dispatch(*h, CS_DISPATCH_ALL), CS_OK);
    return fd;
}

/* Sends it, however often it takes. */
static void send_one(cpg_handle_t h, size_t len) {
    static uint8_t bytes[8192];
    struct iovec part = {bytes, len};
    cs_error_t status;
    while ((status = cpg_mcast_joined(h, CPG_TYPE_AGREED, &part, 1)) == CS_ERR_TRY_AGAIN) {}
    EXPECT(status, CS_OK);
}

/* ---- the descriptor ---- */

static cpg_handle_t shared;
static atomic_bool asking;

/* Calls with answers of another thread, which read the same stream. */
static void *ask(void *none) {
    struct cpg_name group = name_of("descriptor");
    struct cpg_address list[128];
    while (asking) {
        int count = 0;
        EXPECT(cpg_membership_get(shared, &group, list, &count), CS_OK);
        EXPECT(count, 1);
    }
    return none;
}

/* Whether it was readable, and for nothing. */
static bool take_some(cpg_handle_t h, int fd, bool one) {
    struct pollfd p = {fd, POLLIN, 0};
    unsigned before = delivered;
    int there = poll(&p, 1, 20000);
    EXPECT(there, 1);
    if (there != 1) exit(1);
    cs_error_t status = cpg_dispatch(h, one ? CS_DISPATCH_ONE_NONBLOCKING : CS_DISPATCH_ALL);
    if (one) EXPECT(status, delivered > before ? CS_OK : CS_ERR_TRY_AGAIN);
    else EXPECT(status, CS_OK);
    EXPECT(!one || delivered <= before + 1, 1);
    return delivered == before;
}

/* In so many rounds some messages come back, each time with nothing left. How often the descriptor was readable in vain. */
static unsigned play(cpg_handle_t h, int fd, unsigned rounds) {
    unsigned in_vain = 0;
    for (unsigned k = 0; k < rounds; k++) {
        unsigned count = 1 + k * 7 % 20;
        delivered = 0;
        for (unsigned m = 0; m < count; m++) send_one(h, k % 100 == 99 ? 8192 : 64);
        while (delivered < count) in_vain += take_some(h, fd, k % 3 == 0);
        struct pollfd p = {fd, POLLIN, 0};
        for (unsigned left = 0; left < 3 && poll(&p, 1, 0) == 1; left++) in_vain += take_some(h, fd, false);
        EXPECT(poll(&p, 1, 0), 0);
        EXPECT(delivered, count);
    }
    return in_vain;
}

static void be_descriptor(void) {
    pthread_t asker;
    int fd = join(&shared, "descriptor");
    unsigned alone = play(shared, fd, 4000);
    EXPECT(alone <= 400, 1);
    asking = true;
    EXPECT(pthread_create(&asker, NULL, ask, NULL), 0);
    for (unsigned k = 0; k < 1000; k++) { /* an answer's ring is heard here, too, so it may be readable in vain */
        delivered = 0;
        send_one(shared, 64);
        while (delivered == 0) take_some(shared, fd, false);
    }
    for (unsigned k = 0; k < 300; k++) {
        delivered = 0;
        send_one(shared, 64);
        while (delivered == 0) EXPECT(cpg_dispatch(shared, CS_DISPATCH_ONE), CS_OK);
    }
    asking = false;
    pthread_join(asker, NULL);
    EXPECT(cpg_finalize(shared), CS_OK);
    printf("lanes: readable in vain %u times in 4000 rounds\n", alone);
}

/* The lowest descriptor that is free. */
static int lowest_free(void) {
    int fd = dup(STDERR_FILENO);
    close(fd);
    return fd;
}

/* With room for so many descriptors more: four are enough for a handle without lanes, six for one with them, and none is left. */
static void be_few(void) {
    enum { WITHOUT = 4, WITH = 6 };
    struct rlimit before;
    int first = lowest_free();
    EXPECT(getrlimit(RLIMIT_NOFILE, &before), 0);
    for (int room = 0; room <= WITH; room++) {
        struct rlimit few = {(rlim_t)(first + room), before.rlim_max};
        cpg_handle_t h;
        EXPECT(setrlimit(RLIMIT_NOFILE, &few), 0);
        cs_error_t status = cpg_initialize(&h, NULL);
        EXPECT(status, room < WITHOUT ? CS_ERR_NO_RESOURCES : CS_OK);
        EXPECT(setrlimit(RLIMIT_NOFILE, &before), 0);
        if (status != CS_OK) continue;
        struct cpg_name group = name_of("few");
        EXPECT(cpg_join(h, &group), CS_OK);
        send_one(h, 64);
        EXPECT(cpg_finalize(h), CS_OK);
        EXPECT(lowest_free(), first);
    }
}

/* ---- at rest ---- */

struct used {
    unsigned long long ns, switches;
};

static struct used used_by(const char *pid) {
    struct used used = {0, 0};
    char path[64], line[200];
    unsigned long long number;
    snprintf(path, sizeof path, "/proc/%s/schedstat", pid);
    FILE *from = fopen(path, "r");
    EXPECT(from && fscanf(from, "%llu", &used.ns) == 1, 1);
    if (from) fclose(from);
    snprintf(path, sizeof path, "/proc/%s/status", pid);
    from = fopen(path, "r");
    while (from && fgets(line, sizeof line, from))
        if (sscanf(line, "voluntary_ctxt_switches: %llu", &number) == 1) used.switches = number;
    if (from) fclose(from);
    return used;
}

static void be_rest(const char *pid) {
    enum { MOST_AFTER_NS = 20000000, TRAFFIC_MS = 500 };
    cpg_handle_t h;
    int fd = join(&h, "rest");
    struct pollfd p = {fd, POLLIN, 0};
    for (uint64_t end = now_ms() + TRAFFIC_MS; now_ms() < end;) {
        send_one(h, 64);
        EXPECT(poll(&p, 1, 20000), 1);
        EXPECT(cpg_dispatch(h, CS_DISPATCH_ALL), CS_OK);
    }
    struct used stopped = used_by(pid);
    pause_ms(1000);
    struct used second = used_by(pid);
    pause_ms(5000);
    struct used rest = used_by(pid);
    EXPECT(second.ns - stopped.ns < MOST_AFTER_NS, 1);
    EXPECT(rest.ns - second.ns, 0);
    EXPECT(rest.switches - second.switches, 0);
    printf("lanes: %llu us of a processor in the second after traffic, then none\n", (second.ns - stopped.ns) / 1000);
    EXPECT(cpg_finalize(h), CS_OK);
}

/* ---- hostile ---- */

static uint64_t state;

static uint32_t draw(uint32_t below) {
    state ^= state << 13;
    state ^= state >> 7;
    state ^= state << 17;
    return (uint32_t)(state % below);
}

struct raw {
    int socket, memory, bell;
    uint8_t *at;
    struct lane up;
};

static bool greet(struct raw *raw) {
    uint32_t hello[2] = {PROTOCOL_VERSION, HELLO_LANES};
    struct head head = {sizeof hello, ASK_HELLO, 1};
    uint8_t ask[sizeof head + sizeof hello], answer[sizeof head + sizeof(struct hello)];
    char control[CMSG_SPACE(2 * sizeof(int))] __attribute__((aligned(8)));
    struct iovec part = {answer, sizeof answer};
    struct msghdr message = {.msg_iov = &part, .msg_iovlen = 1, .msg_control = control, .msg_controllen = sizeof control};
    *raw = (struct raw){raw_dial(), -1, -1, NULL, {0}};
    memcpy(ask, &head, sizeof head);
    memcpy(ask + sizeof head, hello, sizeof hello);
    EXPECT(send(raw->socket, ask, sizeof ask, MSG_NOSIGNAL), sizeof ask);
    EXPECT(recvmsg(raw->socket, &message, 0), sizeof answer);
    struct cmsghdr *given = CMSG_FIRSTHDR(&message);
    if (!given) return false; /* more than may have lanes */
    EXPECT(given->cmsg_len, CMSG_LEN(2 * sizeof(int)));
    memcpy(&raw->memory, CMSG_DATA(given), sizeof(int));
    memcpy(&raw->bell, CMSG_DATA(given) + sizeof(int), sizeof(int));
    raw->at = mmap(NULL, LANES_MEMORY, PROT_READ | PROT_WRITE, MAP_SHARED, raw->memory, 0);
    EXPECT(raw->at != MAP_FAILED, 1);
    raw->up = lane_up(raw->at);
    return true;
}

/* What no client can do: change the memory's size, have the daemon wait for the pipe. */
static void try_rights(struct raw *raw) {
    EXPECT(ftruncate(raw->memory, 0), -1);
    EXPECT(ftruncate(raw->memory, LANES_MEMORY * 2), -1);
    EXPECT(fcntl(raw->memory, F_ADD_SEALS, F_SEAL_WRITE), -1);
    EXPECT(fcntl(raw->bell, F_SETFL, 0), 0);
    EXPECT(write(raw->bell, "", 1), -1);
}

static void put_ask(struct raw *raw, uint16_t kind, uint32_t len, uint32_t said) {
    struct head head = {said, kind, (uint16_t)draw(65536)};
    uint8_t body[8192];
    for (uint32_t k = 0; k < len; k++) body[k] = (uint8_t)draw(256);
    lane_put(&raw->up, 0, (uint8_t *)&head, sizeof head);
    lane_put(&raw->up, sizeof head, body, len);
    lane_tell(&raw->up, (uint32_t)sizeof head + len);
}

static void scribble(struct raw *raw) {
    struct lanes_memory *words = (struct lanes_memory *)(void *)raw->at;
    switch (draw(9)) {
    case 0: words->up.written = draw(UINT32_MAX); break;
    case 1: words->down.taken = draw(UINT32_MAX); break;
    case 2: words->up.written = raw->up.own + draw(LANE_UP + 2); break;
    case 3: words->down.taken = words->down.written - draw(LANE_DOWN + 2); break;
    case 4: words->up.taken = words->down.written = draw(UINT32_MAX); break;
    case 5:
        for (unsigned k = 0; k < 1000; k++) raw->at[draw(LANES_MEMORY)] = (uint8_t)draw(256);
        break;
    case 6: fallocate(raw->memory, FALLOC_FL_PUNCH_HOLE | FALLOC_FL_KEEP_SIZE, 0, LANES_MEMORY); break;
    case 7: put_ask(raw, (uint16_t)draw(12), draw(100), draw(2) ? draw(100) : draw(UINT32_MAX)); break;
    default:
        for (unsigned k = 0; k < 300; k++) { /* asks that have answers, which nobody takes, and a bell that nobody hears */
            put_ask(raw, ASK_GROUPS, 4, 4);
            words->down.reader_sleeps = words->up.writer_sleeps = 1;
        }
    }
    if (draw(3) && send(raw->socket, "rings", 1 + draw(5), MSG_NOSIGNAL | MSG_DONTWAIT) < 0)
        EXPECT(errno == EPIPE || errno == ECONNRESET || errno == EAGAIN, 1);
}

static void be_hostile(unsigned seconds, uint64_t seed) {
    uint64_t end = now_ms() + 1000 * (uint64_t)seconds;
    unsigned connections = 0, with_lanes = 0;
    state = seed * 2654435761u + 1;
    for (; now_ms() < end; connections++) {
        struct raw raw;
        if (!greet(&raw)) {
            close(raw.socket);
            continue;
        }
        if (with_lanes++ % 8 == 0) try_rights(&raw);
        for (unsigned k = draw(4); k > 0; k--) put_ask(&raw, (uint16_t)(ASK_JOIN + draw(3)), draw(30), 0);
        for (unsigned k = 1 + draw(60); k > 0; k--) scribble(&raw);
        if (draw(2)) close(raw.bell), raw.bell = -1;
        if (draw(2)) EXPECT(send(raw.socket, "x", 1, MSG_NOSIGNAL) <= 1, 1);
        munmap(raw.at, LANES_MEMORY);
        close(raw.memory);
        if (raw.bell >= 0) close(raw.bell);
        close(raw.socket);
    }
    EXPECT(with_lanes > 10, 1);
    printf("lanes: hostile in the lanes of %u of %u connections\n", with_lanes, connections);
    cpg_handle_t h;
    EXPECT(cpg_initialize(&h, NULL), CS_OK);
    EXPECT(cpg_finalize(h), CS_OK);
}

int main(int count, char **words) {
    if (count == 2 && !strcmp(words[1], "descriptor")) {
        be_descriptor();
        be_few();
    } else if (count == 3 && !strcmp(words[1], "rest")) be_rest(words[2]);
    else if (count == 4 && !strcmp(words[1], "hostile")) be_hostile((unsigned)atoi(words[2]), (uint64_t)atoll(words[3]));
    else return 2;
    return finish("lanes");
}
