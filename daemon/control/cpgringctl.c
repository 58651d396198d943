/* cpgringctl: what an operator says to cpgringd and is shown by it; each command is one ask over the node's socket.
 * Rules are put in and taken out by asks of their own, which the node judges; all else is for user 0 and the daemon's user.
 * The exit status is 0, 1 where the daemon says no, 2 where the words are none. */
#include "../protocol.h"
#include <corosync/corotypes.h>
#include <errno.h>
#include <poll.h>
#include <stdbool.h>
#include <stdio.h>
#include <stdlib.h>
#include <string.h>
#include <sys/socket.h>
#include <sys/un.h>
#include <time.h>
#include <unistd.h>

enum { MOST_LINE = 500, WAIT_MS = 10000 };

static const char usage_text[] =
    "usage: cpgringctl [-s SOCKET] [-w SECONDS] COMMAND\n"
    "\n"
    "  status                    the ring, its places, frames and clients\n"
    "  groups                    groups with members\n"
    "  members GROUP             a group's members\n"
    "  clients                   who is connected, and how many bytes each has not read\n"
    "  rules GROUP               a group's rules, each with its index, its ring and its id in that ring\n"
    "  insert GROUP INDEX allow|deny join|send|list|edit [uid=N] [gid=N] [node=N]\n"
    "  remove GROUP ID\n"
    "  audit all|PLACE|FROM-TO   places of this ring, as lines of JSON\n"
    "  left                      places until the next ring\n"
    "  renew                     begin the next ring now\n"
    "  hold NODE, let NODE       a node that is held hears nothing\n"
    "  cut A B, mend A B         frames between two nodes are lost\n"
    "  fates [lose=PERCENT] [repeat=PERCENT] [seed=N]\n"
    "  stop                      the daemon ends in order\n"
    "\n"
    "SOCKET is CPGRING_SOCKET, or $XDG_RUNTIME_DIR/cpgringd.sock, or /run/cpgringd.sock. In GROUP, %XX is a byte.\n";

static int fd = -1;
static uint64_t deadline;

static void fail(const char *what, const char *why) {
    fprintf(stderr, "cpgringctl: %s: %s\n", what, why);
    exit(1);
}

static void usage(void) {
    fputs(usage_text, stderr);
    exit(2);
}

static uint64_t now_ms(void) {
    struct timespec t;
    clock_gettime(CLOCK_MONOTONIC, &t);
    return (uint64_t)t.tv_sec * 1000 + (uint64_t)t.tv_nsec / 1000000;
}

/* ---- the socket ---- */

static void connect_to(const char *path, unsigned wait_ms) {
    struct sockaddr_un at = {.sun_family = AF_UNIX};
    const char *folder = getenv("XDG_RUNTIME_DIR");
    if (!path) path = getenv("CPGRING_SOCKET");
    if (path && *path) snprintf(at.sun_path, sizeof at.sun_path, "%s", path);
    else {
        int len = folder && *folder ? snprintf(at.sun_path, sizeof at.sun_path, "%s/cpgringd.sock", folder) : 0;
        if (len <= 0 || access(at.sun_path, F_OK) != 0) snprintf(at.sun_path, sizeof at.sun_path, "/run/cpgringd.sock");
    }
    struct timeval bound = {(time_t)(wait_ms / 1000), 0};
    fd = socket(AF_UNIX, SOCK_STREAM | SOCK_CLOEXEC, 0);
    if (fd >= 0) setsockopt(fd, SOL_SOCKET, SO_SNDTIMEO, &bound, sizeof bound);
    if (fd < 0 || connect(fd, (struct sockaddr *)&at, sizeof at) != 0) fail(at.sun_path, strerror(errno));
}

static void read_whole(void *to, size_t len) {
    for (size_t have = 0; have < len;) {
        struct pollfd p = {fd, POLLIN, 0};
        uint64_t now = now_ms();
        if (now >= deadline || poll(&p, 1, (int)(deadline - now)) == 0) fail("the daemon", "does not answer in time");
        ssize_t got = recv(fd, (uint8_t *)to + have, len - have, 0);
        if (got < 0 && errno == EINTR) continue;
        if (got <= 0) fail("the daemon", got == 0 ? "closed the connection" : strerror(errno));
        have += (size_t)got;
    }
}

static void write_whole(const void *from, size_t len) {
    for (size_t done = 0; done < len;) {
        ssize_t put = send(fd, (const uint8_t *)from + done, len - done, MSG_NOSIGNAL);
        if (put < 0 && errno == EINTR) continue;
        if (put < 0) fail("the daemon", strerror(errno));
        done += (size_t)put;
    }
}

/* Asks, prints the text that is told, and returns the answer's status. */
static uint32_t ask(uint16_t kind, const void *body, uint32_t len) {
    struct head head = {len, kind, 1};
    uint8_t out[sizeof head + MOST_LINE];
    static uint8_t in[1 << 20];
    uint32_t word = 0;
    memcpy(out, &head, sizeof head);
    memcpy(out + sizeof head, body, len);
    write_whole(out, sizeof head + len);
    for (;;) {
        read_whole(&head, sizeof head);
        if (head.len > sizeof in) fail("the daemon", "said something that this program does not know");
        read_whole(in, head.len);
        if (head.len >= sizeof word) memcpy(&word, in, sizeof word);
        if (head.kind == (kind | ANSWER)) return word;
        if (head.kind == TELL_TEXT && word <= head.len - sizeof word) fwrite(in + sizeof word, 1, word, stdout);
    }
}

/* ---- words ---- */

static int hex_value(char c) {
    if (c >= '0' && c <= '9') return c - '0';
    if (c >= 'a' && c <= 'f') return c - 'a' + 10;
    return c >= 'A' && c <= 'F' ? c - 'A' + 10 : -1;
}

/* A group's name, with %XX as bytes; "%" alone is the empty one. */
static uint32_t name_of(const char *word, uint8_t name[MOST_NAME]) {
    uint32_t n = 0;
    if (!strcmp(word, "%")) return 0;
    for (const char *at = word; *at; at++) {
        if (n == MOST_NAME) fail(word, "longer than 128 bytes");
        bool coded = at[0] == '%' && hex_value(at[1]) >= 0 && hex_value(at[2]) >= 0;
        name[n++] = coded ? (uint8_t)(hex_value(at[1]) << 4 | hex_value(at[2])) : (uint8_t)*at;
        if (coded) at += 2;
    }
    return n;
}

static uint32_t number_of(const char *word) {
    char *end;
    errno = 0;
    unsigned long number = strtoul(word, &end, 10);
    if (end == word || *end || *word == '-' || errno || number > UINT32_MAX) fail(word, "no number");
    return (uint32_t)number;
}

static uint32_t index_of(const char *word, const char *const *words, uint32_t count) {
    for (uint32_t k = 0; k < count; k++)
        if (!strcmp(word, words[k])) return k + 1;
    usage();
    return 0;
}

static uint32_t insert(int count, char **words) {
    static const char *const effects[] = {"allow", "deny"}, *const rights[] = {"join", "send", "list", "edit"};
    uint8_t body[sizeof(struct ask_rule) + MOST_NAME];
    if (count < 5) usage();
    struct ask_rule rule = {.index = number_of(words[2]), .effect = index_of(words[3], effects, 2), .right = index_of(words[4], rights, 4)};
    for (int k = 5; k < count; k++) {
        const char *value = strchr(words[k], '=');
        if (!value) usage();
        uint32_t number = number_of(value + 1);
        if (!strncmp(words[k], "uid=", 4)) rule.has |= HAS_UID, rule.uid = number;
        else if (!strncmp(words[k], "gid=", 4)) rule.has |= HAS_GID, rule.gid = number;
        else if (!strncmp(words[k], "node=", 5)) rule.has |= HAS_NODE, rule.node = number;
        else usage();
    }
    memcpy(body, &rule, sizeof rule);
    uint32_t len = name_of(words[1], body + sizeof rule);
    return ask(ASK_INSERT, body, (uint32_t)sizeof rule + len);
}

static uint32_t remove_rule(int count, char **words) {
    uint8_t body[sizeof(uint32_t) + MOST_NAME];
    if (count != 3) usage();
    uint32_t id = number_of(words[2]);
    memcpy(body, &id, sizeof id);
    return ask(ASK_REMOVE, body, (uint32_t)sizeof id + name_of(words[1], body + sizeof id));
}

/* A command that is its own words; in a group's name %XX goes as it is typed. */
static uint32_t plain(int count, char **words) {
    char line[MOST_LINE] = "";
    size_t len = 0;
    if ((!strcmp(words[0], "members") || !strcmp(words[0], "rules")) && count != 2) usage();
    for (int k = 0; k < count; k++) {
        int put = snprintf(line + len, sizeof line - len, "%s%s", k ? " " : "", words[k]);
        if (put < 0 || (size_t)put >= sizeof line - len) fail(words[k], "too long");
        len += (size_t)put;
    }
    return ask(ASK_CONTROL, line, (uint32_t)len);
}

static const char *status_text(uint32_t status) {
    switch (status) {
    case CS_ERR_ACCESS: return "this user may not do that";
    case CS_ERR_NOT_EXIST: return "there is none";
    case CS_ERR_INVALID_PARAM: return "a word is wrong, or past its range";
    case CS_ERR_NOT_SUPPORTED: return "no such command";
    case CS_ERR_NO_SPACE: return "the table is full";
    case CS_ERR_NAME_TOO_LONG: return "the name is too long";
    case CS_ERR_INTERRUPT: return "the ring ended meanwhile; its audit is told no further";
    case CS_ERR_VERSION: return "the daemon is of another version";
    default: return "the daemon answered with an error";
    }
}

int main(int count, char **words) {
    const char *path = NULL;
    uint32_t hello[2] = {PROTOCOL_VERSION, 0}, status;
    unsigned wait = WAIT_MS;
    int option;
    while ((option = getopt(count, words, "+s:w:h")) != -1) switch (option) {
        case 's': path = optarg; break;
        case 'w': wait = (number_of(optarg) - 1) % 86400 * 1000 + 1000; break; /* a second to a day */
        default: usage();
        }
    count -= optind, words += optind;
    if (count < 1) usage();
    deadline = now_ms() + wait;
    connect_to(path, wait);
    if ((status = ask(ASK_HELLO, hello, sizeof hello)) == CS_OK) {
        if (!strcmp(words[0], "insert")) status = insert(count, words);
        else if (!strcmp(words[0], "remove")) status = remove_rule(count, words);
        else status = plain(count, words);
    }
    if (fflush(stdout) != 0) fail("standard output", strerror(errno));
    if (status != CS_OK) fprintf(stderr, "cpgringctl: %u: %s\n", status, status_text(status));
    return status != CS_OK;
}
