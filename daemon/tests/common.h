/* What the tests share: expectations that are told where they fail, raw clients of the protocol, processes and clocks.
 * A test is one program that is run against a daemon whose socket CPGRING_SOCKET names; its exit status is 0 where all held.
 * Expected values are written from what the interface and docs/DAEMON.md say. */
#ifndef CPGRINGD_TESTS_COMMON_H
#define CPGRINGD_TESTS_COMMON_H
#include "../protocol.h"
#include <corosync/cpg.h>
#include <errno.h>
#include <poll.h>
#include <signal.h>
#include <stdbool.h>
#include <stdio.h>
#include <stdlib.h>
#include <string.h>
#include <sys/resource.h>
#include <sys/socket.h>
#include <sys/un.h>
#include <sys/wait.h>
#include <time.h>
#include <unistd.h>

static unsigned failures __attribute__((unused));

#define EXPECT(is, wanted)                                                                                             \
    do {                                                                                                               \
        long long is_ = (long long)(is), wanted_ = (long long)(wanted);                                                \
        if (is_ != wanted_) {                                                                                          \
            fprintf(stderr, "%s:%d: %s is %lld, and not %lld\n", __FILE__, __LINE__, #is, is_, wanted_);               \
            if (++failures == 30) _exit(1); /* the rest would be the same */                                           \
        }                                                                                                              \
    } while (0)

static inline uint64_t now_ms(void) {
    struct timespec t;
    clock_gettime(CLOCK_MONOTONIC, &t);
    return (uint64_t)t.tv_sec * 1000 + (uint64_t)t.tv_nsec / 1000000;
}

static inline void pause_ms(unsigned ms) {
    struct timespec t = {ms / 1000, (long)(ms % 1000) * 1000000};
    nanosleep(&t, NULL);
}

static inline struct cpg_name name_of(const char *text) {
    struct cpg_name name = {(uint32_t)strlen(text), {0}};
    memcpy(name.value, text, name.length);
    return name;
}

static inline void raise_descriptors(void) {
    struct rlimit files;
    if (getrlimit(RLIMIT_NOFILE, &files) != 0) return;
    files.rlim_cur = files.rlim_max;
    setrlimit(RLIMIT_NOFILE, &files);
}

/* Has the library connect to that node from now on. */
static inline void use_node(const char *base, unsigned node) {
    char path[200];
    if (node == 1) snprintf(path, sizeof path, "%s", base);
    else snprintf(path, sizeof path, "%s.%u", base, node);
    setenv("CPGRING_SOCKET", path, 1);
}

/* ---- raw clients ---- */

static inline int raw_dial(void) {
    struct sockaddr_un at = {.sun_family = AF_UNIX};
    snprintf(at.sun_path, sizeof at.sun_path, "%s", getenv("CPGRING_SOCKET"));
    int fd = socket(AF_UNIX, SOCK_STREAM, 0);
    if (fd >= 0 && connect(fd, (struct sockaddr *)&at, sizeof at) == 0) return fd;
    if (fd >= 0) close(fd);
    return -1;
}

/* Whether the daemon ends the connection within so many milliseconds; what it says is dropped. */
static inline bool raw_is_ended(int fd, unsigned ms) {
    uint64_t end = now_ms() + ms;
    char bytes[65536];
    for (;;) {
        uint64_t now = now_ms();
        struct pollfd p = {fd, POLLIN, 0};
        if (now >= end || poll(&p, 1, (int)(end - now)) == 0) return false;
        ssize_t got = recv(fd, bytes, sizeof bytes, 0);
        if (got == 0 || (got < 0 && errno != EINTR)) return true;
    }
}

/* Asks, and returns the answer's status; 0 where none comes. */
static inline uint32_t raw_ask(int fd, uint16_t kind, const void *body, uint32_t len) {
    struct head head = {len, kind, 7};
    uint8_t out[sizeof head + 256], in[4096];
    uint32_t status = 0;
    memcpy(out, &head, sizeof head);
    if (len) memcpy(out + sizeof head, body, len);
    if (send(fd, out, sizeof head + len, MSG_NOSIGNAL) < 0) return 0;
    do {
        if (recv(fd, &head, sizeof head, MSG_WAITALL) != (ssize_t)sizeof head || head.len > sizeof in) return 0;
        if (recv(fd, in, head.len, MSG_WAITALL) != (ssize_t)head.len) return 0;
    } while (head.kind != (kind | ANSWER));
    memcpy(&status, in, sizeof status);
    return status;
}

static inline uint32_t raw_greet(int fd) {
    uint32_t hello[2] = {PROTOCOL_VERSION, 0};
    return raw_ask(fd, ASK_HELLO, hello, sizeof hello);
}

/* ---- processes ---- */

/* The exit status of a process; 128 and the signal where one ended it. */
static inline int status_of(pid_t pid) {
    int status;
    while (waitpid(pid, &status, 0) < 0 && errno == EINTR) {}
    return WIFEXITED(status) ? WEXITSTATUS(status) : 128 + WTERMSIG(status);
}

static inline int finish(const char *name) {
    if (failures) fprintf(stderr, "%s: %u FAILED\n", name, failures);
    return failures > 0;
}
#endif
