/* Messages of one closed process group: how many are ordered in a second, and how long one takes to come back to its sender.
 * It is compiled against libcpg's header and runs over either daemon.
 * Usage: libcpg SIZE WINDOW SENDERS LISTENERS SECONDS [PID]   prints the rate, the 50th and 99th of 100 times, in microseconds,
 * and the microseconds of a processor that all its processes and that of PID, the daemon's, took for a message */
#include <corosync/cpg.h>
#include <poll.h>
#include <stdatomic.h>
#include <stdbool.h>
#include <stdio.h>
#include <stdlib.h>
#include <string.h>
#include <sys/mman.h>
#include <sys/resource.h>
#include <sys/wait.h>
#include <time.h>
#include <unistd.h>

enum { MOST_SENDERS = 32, BUCKETS = 200000, MOST_SIZE = 1 << 20, LIMIT_S = 30 };

static struct shared { /* times in microseconds, up to BUCKETS, of all senders */
    atomic_uint ready, failed;
    atomic_ulong delivered[MOST_SENDERS], all[MOST_SENDERS], counts[BUCKETS];
} *shared;

struct front {
    uint64_t sent;
    uint32_t sender;
};

static unsigned number, members, outstanding;
static bool counting;

static uint64_t now_ns(void) {
    struct timespec t;
    clock_gettime(CLOCK_MONOTONIC, &t);
    return (uint64_t)t.tv_sec * 1000000000u + (uint64_t)t.tv_nsec;
}

static void deliver(cpg_handle_t h, const struct cpg_name *g, uint32_t node, uint32_t pid, void *message, size_t len) {
    struct front front = {0, UINT32_MAX};
    (void)h, (void)g, (void)node, (void)pid;
    if (len >= sizeof front) memcpy(&front, message, sizeof front);
    if (counting && number < MOST_SENDERS) shared->delivered[number]++;
    if (number < MOST_SENDERS) shared->all[number]++;
    if (front.sender != number) return;
    outstanding--;
    uint64_t took = (now_ns() - front.sent) / 1000;
    if (counting) shared->counts[took < BUCKETS ? took : BUCKETS - 1]++;
}

static void change(cpg_handle_t h, const struct cpg_name *g, const struct cpg_address *m, size_t count, const struct cpg_address *l,
                   size_t left, const struct cpg_address *j, size_t joined) {
    (void)h, (void)g, (void)m, (void)l, (void)left, (void)j, (void)joined;
    members = (unsigned)count;
}

static bool send_one(cpg_handle_t h, uint8_t *bytes, size_t size) {
    struct front front = {now_ns(), number};
    struct iovec part = {bytes, size};
    memcpy(bytes, &front, sizeof front);
    cs_error_t status = cpg_mcast_joined(h, CPG_TYPE_AGREED, &part, 1);
    if (status != CS_OK && status != CS_ERR_TRY_AGAIN) shared->failed++;
    if (status == CS_OK) outstanding++;
    return status == CS_OK;
}

static void be_member(size_t size, unsigned window, unsigned all, bool sends, double seconds) {
    static uint8_t bytes[MOST_SIZE];
    cpg_callbacks_t callbacks = {deliver, change};
    struct cpg_name group = {6, "libcpg"};
    cpg_handle_t h;
    int fd;
    if (cpg_initialize(&h, &callbacks) != CS_OK || cpg_join(h, &group) != CS_OK || cpg_fd_get(h, &fd) != CS_OK) {
        shared->failed++;
        return;
    }
    struct pollfd p = {fd, POLLIN, 0};
    uint64_t limit = now_ns() + (uint64_t)LIMIT_S * 1000000000u, begin = 0;
    uint64_t whole = (uint64_t)(seconds * 1e9), warm = whole / 10;
    while (now_ns() < limit) {
        if (begin == 0 && members == all) begin = now_ns();
        uint64_t since = begin ? now_ns() - begin : 0;
        if (since > whole + warm) break;
        counting = since >= warm;
        bool full = false;
        while (sends && begin && outstanding < window && !full) full = !send_one(h, bytes, size);
        poll(&p, 1, full ? 1 : 10);
        if (cpg_dispatch(h, CS_DISPATCH_ALL) != CS_OK) {
            shared->failed++;
            return;
        }
    }
    counting = false;
    shared->ready++;
    for (limit = now_ns() + 3000000000u; shared->ready < all && now_ns() < limit;) { /* the others go on being told */
        poll(&p, 1, 10);
        cpg_dispatch(h, CS_DISPATCH_ALL);
    }
    cpg_finalize(h);
}

static unsigned percentile(double share) {
    unsigned long all = 0, sum = 0;
    for (unsigned k = 0; k < BUCKETS; k++) all += shared->counts[k];
    for (unsigned k = 0; k < BUCKETS; k++)
        if ((double)(sum += shared->counts[k]) >= share * (double)all) return k;
    return BUCKETS;
}

/* Microseconds of a processor that a process took, in hundredths of a second; 0 where there is none. */
static double process_us(const char *pid) {
    char path[64];
    unsigned long user = 0, system = 0;
    snprintf(path, sizeof path, "/proc/%s/stat", pid);
    FILE *from = fopen(path, "r");
    if (from && fscanf(from, "%*d (%*[^)]) %*c %*d %*d %*d %*d %*d %*u %*u %*u %*u %*u %lu %lu", &user, &system) != 2) user = system = 0;
    if (from) fclose(from);
    return (double)(user + system) * 1e6 / (double)sysconf(_SC_CLK_TCK);
}

static double children_us(void) {
    struct rusage used;
    getrusage(RUSAGE_CHILDREN, &used);
    return (double)(used.ru_utime.tv_sec + used.ru_stime.tv_sec) * 1e6 + (double)(used.ru_utime.tv_usec + used.ru_stime.tv_usec);
}

int main(int count, char **words) {
    if (count != 6 && count != 7) return 2;
    size_t size = (size_t)atol(words[1]);
    unsigned window = (unsigned)atoi(words[2]), senders = (unsigned)atoi(words[3]), listeners = (unsigned)atoi(words[4]);
    double seconds = atof(words[5]), daemon = count == 7 ? process_us(words[6]) : 0;
    if (size < sizeof(struct front) || size > MOST_SIZE || senders < 1 || senders > MOST_SENDERS) return 2;
    shared = mmap(NULL, sizeof *shared, PROT_READ | PROT_WRITE, MAP_SHARED | MAP_ANONYMOUS, -1, 0);
    if (shared == MAP_FAILED) return 1;
    for (number = 0; number < senders + listeners; number++)
        if (fork() == 0) {
            be_member(size, window, senders + listeners, number < senders, seconds);
            _exit(0);
        }
    while (wait(NULL) > 0) {}
    double used = children_us() + (count == 7 ? process_us(words[6]) - daemon : 0);
    unsigned long most = 0, all = 1;
    for (unsigned k = 0; k < senders; k++) most = shared->delivered[k] > most ? shared->delivered[k] : most;
    for (unsigned k = 0; k < senders; k++) all = shared->all[k] > all ? shared->all[k] : all;
    if (shared->failed) printf("0 - - -\n"); /* a call failed */
    else printf("%.0f %u %u %.1f\n", (double)most / seconds, percentile(0.5), percentile(0.99), used / (double)all);
    return shared->failed > 0;
}
