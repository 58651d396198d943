/* limits WHAT: what the daemon allows of connections.
 *     ungreeted    --ungreeted=4 --greet-seconds=5: the oldest of five silent ones is ended at once, the others in time
 *     connections  --user-connections=5: the sixth is turned away, and let in once one is gone
 *     calls CTL    --user-calls=10: while a node is held, ten calls of a user are heard and no more; CTL is cpgringctl
 *     names CTL    --places=100000: 17,000 long names of no group fill no table, and end one ring; CTL is cpgringctl
 *     descriptors  under `ulimit -n` of some 30: who comes is turned away or waits, and is let in once there is room */
#include "common.h"

enum { MOST = 100 };

static void ungreeted(void) {
    int fds[5];
    cpg_handle_t h;
    for (unsigned k = 0; k < 5; k++) EXPECT((fds[k] = raw_dial()) >= 0, 1);
    EXPECT(raw_is_ended(fds[0], 4800), 1); /* it is pushed out before its time is over */
    EXPECT(cpg_initialize(&h, NULL), CS_OK);
    for (unsigned k = 1; k < 5; k++) EXPECT(raw_is_ended(fds[k], 20000), 1);
    pause_ms(5500);
    EXPECT(cpg_finalize(h), CS_OK); /* who greeted stays */
    int fd = raw_dial();
    EXPECT(raw_greet(fd), CS_OK);
    EXPECT(raw_is_ended(fd, 5500), 0);
    close(fd);
}

static void connections(void) {
    int fds[6];
    for (unsigned k = 0; k < 6; k++) EXPECT((fds[k] = raw_dial()) >= 0, 1);
    for (unsigned k = 0; k < 5; k++) EXPECT(raw_greet(fds[k]), CS_OK);
    EXPECT(raw_is_ended(fds[5], 20000), 1);
    close(fds[0]);
    uint32_t status = 0;
    for (uint64_t end = now_ms() + 30000; status != CS_OK && now_ms() < end; pause_ms(10)) {
        close(fds[5]);
        EXPECT((fds[5] = raw_dial()) >= 0, 1);
        status = raw_greet(fds[5]);
    }
    EXPECT(status, CS_OK);
    for (unsigned k = 1; k < 6; k++) close(fds[k]);
}

/* How many connections were told something since. */
static unsigned count_answers(const int *fds) {
    unsigned count = 0;
    for (unsigned k = 0; k < MOST; k++) {
        struct pollfd p = {fds[k], POLLIN, 0};
        char bytes[64];
        if (poll(&p, 1, 0) > 0 && recv(fds[k], bytes, sizeof bytes, MSG_DONTWAIT) > 0) count++;
    }
    return count;
}

static void descriptors(void) {
    int fds[MOST];
    unsigned greeted = 0;
    for (unsigned k = 0; k < MOST; k++) EXPECT((fds[k] = raw_dial()) >= 0, 1);
    for (unsigned k = 0; k < MOST; k++) {
        uint32_t hello[2] = {PROTOCOL_VERSION, 0};
        struct head head = {sizeof hello, ASK_HELLO, 7};
        if (send(fds[k], &head, sizeof head, MSG_NOSIGNAL) > 0) send(fds[k], hello, sizeof hello, MSG_NOSIGNAL);
    }
    for (uint64_t end = now_ms() + 60000; greeted <= 5 && now_ms() < end; pause_ms(200)) greeted += count_answers(fds);
    pause_ms(200);
    greeted += count_answers(fds);
    EXPECT(greeted > 5 && greeted < 60, 1);
    for (unsigned k = 0; k < MOST; k++) close(fds[k]);
    uint32_t status = 0;
    for (uint64_t end = now_ms() + 60000; status != CS_OK && now_ms() < end; pause_ms(50)) {
        int fd = raw_dial();
        status = raw_greet(fd);
        close(fd);
    }
    EXPECT(status, CS_OK);
}

/* How many asks the daemon heard of this process. */
static unsigned heard(const char *ctl) {
    char line[400];
    unsigned pid, asks, found = 0;
    snprintf(line, sizeof line, "%s clients", ctl);
    FILE *from = popen(line, "r");
    while (from && fgets(line, sizeof line, from))
        if (sscanf(line, "client node %*u connection %*u pid %u uid %*u gid %*u asks %u", &pid, &asks) == 2 && pid == (unsigned)getpid())
            found = asks;
    if (from) pclose(from);
    return found;
}

static void control(const char *ctl, const char *words) {
    char line[400];
    snprintf(line, sizeof line, "%s %s", ctl, words);
    EXPECT(system(line), 0);
}

static void calls(const char *ctl) {
    struct head head = {0, ASK_SEND, 0};
    int fd = raw_dial();
    EXPECT(raw_greet(fd), CS_OK);
    EXPECT(raw_ask(fd, ASK_JOIN, "calls", 5), CS_OK);
    control(ctl, "hold 1");
    for (unsigned k = 0; k < 100; k++) EXPECT(send(fd, &head, sizeof head, MSG_NOSIGNAL), sizeof head);
    for (uint64_t end = now_ms() + 60000; heard(ctl) < 12 && now_ms() < end;) pause_ms(20);
    pause_ms(200);
    EXPECT(heard(ctl), 12); /* the greeting, the join and ten */
    control(ctl, "let 1");
    for (uint64_t end = now_ms() + 60000; heard(ctl) < 102 && now_ms() < end;) pause_ms(20);
    EXPECT(heard(ctl), 102);
    close(fd);
}

/* A number of the daemon's status: that behind the word, of the line that begins with another one. */
static unsigned status_number(const char *ctl, const char *line_word, const char *word) {
    char line[400];
    unsigned number = UINT32_MAX;
    snprintf(line, sizeof line, "%s status", ctl);
    FILE *from = popen(line, "r");
    while (from && fgets(line, sizeof line, from)) {
        const char *at = strstr(line, word);
        if (!strncmp(line, line_word, strlen(line_word)) && at) number = (unsigned)strtoul(at + strlen(word), NULL, 10);
    }
    if (from) pclose(from);
    return number;
}

/* Each name takes part in a call that is refused: no rule has that id. */
static void names(const char *ctl) {
    struct {
        uint32_t id;
        uint8_t name[MOST_NAME];
    } ask;
    enum { NAMES = 17000 };
    int fd = raw_dial();
    EXPECT(raw_greet(fd), CS_OK);
    memset(&ask, 0xFF, sizeof ask);
    for (uint32_t k = 0; k < NAMES; k++) {
        memcpy(ask.name, &k, sizeof k);
        EXPECT(raw_ask(fd, ASK_REMOVE, &ask, sizeof ask), CS_ERR_NOT_EXIST);
    }
    EXPECT(status_number(ctl, "clients", "long_names ") < NAMES, 1);
    EXPECT(status_number(ctl, "renewals", "renewals "), 1);
    EXPECT(raw_ask(fd, ASK_JOIN, ask.name, sizeof ask.name), CS_OK);
    close(fd);
}

int main(int count, char **words) {
    if (count < 2) return 2;
    if (count == 3) {
        if (!strcmp(words[1], "calls")) calls(words[2]);
        else if (!strcmp(words[1], "names")) names(words[2]);
        else return 2;
        return finish("limits");
    }
    if (!strcmp(words[1], "ungreeted")) ungreeted();
    else if (!strcmp(words[1], "connections")) connections();
    else descriptors();
    return finish("limits");
}
