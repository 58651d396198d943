/* The options of cpgringd; see options.h.
 * One table says of each its name, its range, where it is kept and what it is for, and prints the help.
 * Numbers are decimal, without sign; sizes may end in K, M or G. */
#include "options.h"
#include "log.h"
#include "node.h"
#include <grp.h>
#include <pwd.h>
#include <stdio.h>
#include <stdlib.h>
#include <string.h>
#include <time.h>

enum kind { TEXT, FLAG, U32, U64, OCTAL, LEVEL, OWNER };

struct option {
    char letter;
    const char *name, *value;
    enum kind kind;
    void *at;
    uint64_t least, most;
    const char *help;
};

static struct options chosen;

static const struct option table[] = {
    {'c', "conf", "FILE", TEXT, &chosen.conf, 0, 0, "who is let in: its uidgid sections, and those of uidgid.d [/etc/corosync/corosync.conf]"},
    {'s', "socket", "PATH", TEXT, &chosen.socket, 0, 0, "node 1's socket; node K's is PATH.K [$XDG_RUNTIME_DIR or /run, cpgringd.sock]"},
    {'n', "nodes", "N", U32, &chosen.nodes, 1, CPGRING_MOST_NODES, "nodes of the ring [1]"},
    {'f', "foreground", NULL, FLAG, &chosen.foreground, 0, 0, "stay in the foreground; else go on in the background once all is ready"},
    {0, "proved", NULL, FLAG, &chosen.proved, 0, 0, "one node, proved from clients' bytes to clients' bytes; no audit, no lanes, no word of cpgringctl but rules"},
    {0, "mode", "OCTAL", OCTAL, &chosen.mode, 0, 0777, "mode of the sockets [666]"},
    {0, "owner", "USER[:GROUP]", OWNER, NULL, 0, 0, "owner of the sockets"},
    {0, "log", "LEVEL", LEVEL, NULL, 0, 0, "error, warning, notice, info or debug [notice]"},
    {0, "audit", "DIR", TEXT, &chosen.audit, 0, 0, "write each ring's audit there, as ring-N.jsonl"},
    {0, "lose", "PERCENT", U32, &chosen.lose, 0, 90, "of 100 frames from node to node, lose so many [0]"},
    {0, "repeat", "PERCENT", U32, &chosen.repeat, 0, 90, "and bring so many twice [0]"},
    {0, "seed", "N", U64, &chosen.seed, 0, UINT64_MAX, "where the draw of fates begins [1]"},
    {0, "ring", "N", U32, &chosen.ring, 1, 1000000000, "number of the first ring [by the clock]"},
    {0, "places", "N", U32, &chosen.places, 16, 500000, "a ring ends after so many entries [8192]"},
    {0, "ring-bytes", "SIZE", U64, &chosen.ring_bytes, 65536, UINT64_C(1) << 40, "or after so many bytes of messages [32M]"},
    {0, "unread", "SIZE", U64, &limits.unread, 65536, UINT64_C(1) << 40, "a client that is more behind with reading is ended [256M]"},
    {0, "user-unread", "SIZE", U64, &limits.user_unread, 65536, UINT64_C(1) << 40, "all clients of one user together [2G]"},
    {0, "connections", "N", U32, &limits.connections, 1, 30000, "connections at once [16384]"},
    {0, "user-connections", "N", U32, &limits.user_connections, 1, 30000, "of one user [4096]"},
    {0, "user-calls", "N", U32, &limits.user_calls, 1, MOST_WAITING, "calls of one user that wait at a node, which has room for 256 [224]"},
    {0, "ungreeted", "N", U32, &limits.user_ungreeted, 1, 30000, "of one user that did not greet yet; one more ends the oldest [256]"},
    {0, "greet-seconds", "N", U32, &limits.greet_seconds, 1, 3600, "a connection that did not greet for so long is ended [5]"},
    {0, "user-lanes", "N", U32, &limits.user_lanes, 0, 4096, "connections of one user with shared memory in place of a socket [64]"},
    {0, "spin", "MICROSECONDS", U32, &chosen.spin, 0, 1000, "the daemon looks for work for so long before it sleeps, while that pays [50]"},
    {0, "stop-seconds", "N", U32, &chosen.stop_seconds, 0, 3600, "when stopped, wait so long for clients to read [2]"},
};
enum { COUNT = sizeof table / sizeof *table };

static void print_help(void) {
    printf("usage: cpgringd [-c FILE] [-s PATH] [-n NODES] [-f] [--OPTION=VALUE ..]\n\n"
           "A daemon of closed process groups, for programs of libcpg on this machine.\n\n");
    for (unsigned k = 0; k < COUNT; k++) {
        char left[48], letter[4] = "  ";
        if (table[k].letter) snprintf(letter, sizeof letter, "-%c", table[k].letter);
        snprintf(left, sizeof left, "%s --%s%s%s", letter, table[k].name, table[k].value ? "=" : "", table[k].value ? table[k].value : "");
        printf("  %-28s %s\n", left, table[k].help);
    }
    printf("     --help, --version\n");
}

static bool read_number(const char *word, unsigned base, bool sized, uint64_t *number) {
    uint64_t n = 0;
    const char *at = word;
    for (; *at >= '0' && *at < (char)('0' + base); at++) {
        uint64_t digit = (uint64_t)(*at - '0');
        if (n > (UINT64_MAX - digit) / base) return false;
        n = n * base + digit;
    }
    if (at == word) return false;
    unsigned shift = sized && *at == 'K' ? 10 : sized && *at == 'M' ? 20 : sized && *at == 'G' ? 30 : 0;
    if (shift) at++;
    if (*at || n > UINT64_MAX >> shift) return false;
    *number = n << shift;
    return true;
}

static bool read_id(const char *word, bool is_group, unsigned *id) {
    uint64_t number;
    if (read_number(word, 10, false, &number)) {
        *id = (unsigned)number;
        return number < UINT32_MAX;
    }
    struct passwd *user = is_group ? NULL : getpwnam(word);
    struct group *group = is_group ? getgrnam(word) : NULL;
    if (user) *id = user->pw_uid;
    if (group) *id = group->gr_gid;
    return user || group;
}

static bool read_owner(const char *word) {
    char user[256];
    const char *colon = strchr(word, ':');
    size_t len = colon ? (size_t)(colon - word) : strlen(word);
    if (len >= sizeof user) return false;
    memcpy(user, word, len);
    user[len] = 0;
    if (len > 0 && !read_id(user, false, &chosen.owner)) return false;
    return !colon || read_id(colon + 1, true, &chosen.owner_group);
}

static bool set_level(const char *word) {
    enum level level;
    if (!log_level(word, &level)) return false;
    log_up_to(level);
    return true;
}

static bool set(const struct option *o, const char *value) {
    uint64_t number = 0;
    if (o->kind == FLAG) {
        *(bool *)o->at = true;
        return true;
    }
    if (o->kind == TEXT) {
        *(const char **)o->at = value;
        return *value != 0;
    }
    if (o->kind == LEVEL) return set_level(value);
    if (o->kind == OWNER) return read_owner(value);
    if (!read_number(value, o->kind == OCTAL ? 8 : 10, o->kind == U64, &number) || number < o->least || number > o->most) return false;
    if (o->kind == U64) *(uint64_t *)o->at = number;
    else *(uint32_t *)o->at = (uint32_t)number;
    return true;
}

/* The option that a word names; what is behind its '=' or its letter, NULL where the value is the next word. */
static const struct option *find(const char *word, const char **value) {
    *value = NULL;
    for (unsigned k = 0; k < COUNT; k++) {
        size_t len = strlen(table[k].name);
        if (table[k].letter && word[0] == '-' && word[1] == table[k].letter) {
            if (word[2]) *value = word + 2;
            return table[k].kind == FLAG && word[2] ? NULL : &table[k];
        }
        if (strncmp(word, "--", 2) || strncmp(word + 2, table[k].name, len)) continue;
        if (word[2 + len] == '=' && table[k].kind != FLAG) *value = word + 3 + len;
        else if (word[2 + len]) continue;
        return &table[k];
    }
    return NULL;
}

static void set_defaults(void) {
    chosen = (struct options){.nodes = 1, .seed = 1, .places = 8192, .ring_bytes = 32 << 20, .mode = 0666, .stop_seconds = 2, .spin = 50,
                            .owner = (uid_t)-1, .owner_group = (gid_t)-1};
    chosen.ring = (uint32_t)((uint64_t)time(NULL) % 1000000000) + 1;
    limits = (struct limits){.unread = 256 << 20, .user_unread = UINT64_C(2) << 30, .connections = 16384, .user_connections = 4096,
                             .user_calls = 224, .user_ungreeted = 256, .greet_seconds = 5, .user_lanes = 64, .room = 1 << 20};
}

enum words options_read(int count, char **words, struct options *options) {
    set_defaults();
    for (int k = 1; k < count; k++) {
        const char *value;
        if (!strcmp(words[k], "--help") || !strcmp(words[k], "-h")) {
            print_help();
            return WORDS_ANSWERED;
        }
        if (!strcmp(words[k], "--version")) {
            printf("cpgringd 1.0\n");
            return WORDS_ANSWERED;
        }
        const struct option *o = find(words[k], &value);
        if (o && o->kind != FLAG && !value && k + 1 < count) value = words[++k];
        if (!o || (o->kind != FLAG && !value) || !set(o, value)) {
            log_line(LOG_ERROR, "'%s'%s%s is no option, or out of its range; --help tells them", o ? o->name : words[k], value ? " " : "",
                     value ? value : "");
            return WORDS_BAD;
        }
    }
    if (chosen.lose + chosen.repeat > 100) {
        log_line(LOG_ERROR, "--lose and --repeat are more than 100 together");
        return WORDS_BAD;
    }
    if (chosen.proved && (chosen.nodes != 1 || chosen.lose || chosen.repeat || chosen.audit)) {
        log_line(LOG_ERROR, "--proved has one node, which sends no frames, and no audit");
        return WORDS_BAD;
    }
    *options = chosen;
    return WORDS_GOOD;
}
