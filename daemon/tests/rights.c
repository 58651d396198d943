/* rights CTL: who is let in, and what rules deny; the daemon runs with a conf that lists user 65534 (nobody) alone, and CTL
 * is cpgringctl. It is run by user 0, who becomes other users.
 * Denied joins, sends and listings are told where the interface has a word for it, and listings leave such groups out. */
#include "common.h"

static const char *ctl;

static int control(const char *words) {
    char line[400];
    snprintf(line, sizeof line, "%s %s >/dev/null 2>&1", ctl, words);
    int status = system(line);
    return WIFEXITED(status) ? WEXITSTATUS(status) : -1;
}

/* Ids are of their ring: this asks for today's. */
static unsigned id_of_first_rule(const char *group) {
    char line[400];
    unsigned id = 0;
    snprintf(line, sizeof line, "%s rules %s", ctl, group);
    FILE *from = popen(line, "r");
    EXPECT(from && fscanf(from, "rule 0 ring %*u id %u deny join uid=65534", &id) == 1, 1);
    if (from) pclose(from);
    return id;
}

static unsigned messages;

static void deliver(cpg_handle_t h, const struct cpg_name *g, uint32_t node, uint32_t pid, void *message, size_t len) {
    (void)h, (void)g, (void)node, (void)pid, (void)message, (void)len;
    messages++;
}

/* As that user, in a process of its own. */
static void as_user(unsigned uid, void (*what)(void)) {
    pid_t pid = fork();
    if (pid == 0) {
        if (setgid(uid) != 0 || setuid(uid) != 0) _exit(99);
        what();
        _exit(failures > 0);
    }
    EXPECT(status_of(pid), 0);
}

static void stranger(void) {
    cpg_handle_t h;
    EXPECT(cpg_initialize(&h, NULL), CS_ERR_ACCESS);
    EXPECT(control("status"), 1);
}

static cs_error_t send_one(cpg_handle_t h) {
    struct iovec part = {"x", 1};
    return cpg_mcast_joined(h, CPG_TYPE_AGREED, &part, 1);
}

static bool is_listed(cpg_handle_t h, const char *text) {
    struct cpg_iteration_description_t at;
    cpg_iteration_handle_t it;
    struct cpg_name name = name_of(text);
    bool found = false;
    EXPECT(cpg_iteration_initialize(h, CPG_ITERATION_NAME_ONLY, NULL, &it), CS_OK);
    while (cpg_iteration_next(it, &at) == CS_OK)
        if (at.group.length == name.length && !memcmp(at.group.value, name.value, name.length)) found = true;
    EXPECT(cpg_iteration_finalize(it), CS_OK);
    return found;
}

static void listed_user(void) {
    cpg_callbacks_t callbacks = {deliver, NULL};
    struct cpg_name closed = name_of("closed"), mute = name_of("mute"), hidden = name_of("hidden"), open = name_of("open");
    struct cpg_address list[CPG_MEMBERS_MAX];
    cpg_iteration_handle_t it;
    cpg_handle_t h;
    int count = 0;
    EXPECT(cpg_initialize(&h, &callbacks), CS_OK);
    EXPECT(cpg_join(h, &closed), CS_ERR_ACCESS);
    EXPECT(cpg_membership_get(h, &hidden, list, &count), CS_ERR_ACCESS);
    EXPECT(cpg_membership_get(h, &open, list, &count), CS_OK);
    EXPECT(count, 1);
    EXPECT(cpg_iteration_initialize(h, CPG_ITERATION_ONE_GROUP, &hidden, &it), CS_ERR_ACCESS);
    EXPECT(is_listed(h, "hidden"), 0);
    EXPECT(is_listed(h, "open"), 1);
    EXPECT(cpg_join(h, &mute), CS_OK);
    EXPECT(send_one(h), CS_OK); /* it has no answer */
    cs_error_t status = CS_OK;
    for (uint64_t end = now_ms() + 30000; status == CS_OK && now_ms() < end; pause_ms(5)) {
        EXPECT(cpg_dispatch(h, CS_DISPATCH_ALL), CS_OK);
        status = send_one(h);
    }
    EXPECT(status, CS_ERR_ACCESS); /* the next says so */
    EXPECT(cpg_dispatch(h, CS_DISPATCH_ALL), CS_OK);
    EXPECT(messages, 0);
    EXPECT(control("insert mute 0 allow send"), 1); /* the right to edit is nobody's by default */
    EXPECT(control("hold 1"), 1);
    EXPECT(control("stop"), 1);
    EXPECT(cpg_finalize(h), CS_OK);
}

static void remove_rule(void) {
    char removal[100];
    EXPECT(control("members hidden"), 0);
    snprintf(removal, sizeof removal, "remove closed %u", id_of_first_rule("closed"));
    EXPECT(control(removal), 0);
    EXPECT(control(removal), 1);
}

/* Gives places to so many messages, so that a ring of few places ends. */
static void use_up(cpg_handle_t h, unsigned most) {
    struct iovec part = {(void *)(uintptr_t)"used", 4};
    for (unsigned k = 0; k < most; k++)
        while (cpg_mcast_joined(h, CPG_TYPE_AGREED, &part, 1) == CS_ERR_TRY_AGAIN) EXPECT(cpg_dispatch(h, CS_DISPATCH_ALL), CS_OK);
}

static void join_group(cpg_handle_t *h, const char *text) {
    struct cpg_name name = name_of(text);
    EXPECT(cpg_initialize(h, NULL), CS_OK);
    EXPECT(cpg_join(*h, &name), CS_OK);
}

int main(int count, char **words) {
    cpg_handle_t hidden, open;
    if (count < 2) return 2;
    ctl = words[1];
    bool operated = count == 2; /* else rules alone are an operator's */
    if (geteuid() != 0) {
        printf("rights: skipped: only user 0 can become other users\n");
        return 0;
    }
    EXPECT(control("insert closed 0 deny join uid=65534"), 0);
    EXPECT(control("insert mute 0 deny send uid=65534"), 0);
    EXPECT(control("insert hidden 0 deny list uid=65534"), 0);
    join_group(&hidden, "hidden");
    join_group(&open, "open");
    as_user(1, stranger);
    as_user(65534, listed_user);
    if (operated) EXPECT(control("renew"), 0); /* rules and members are carried over */
    else use_up(open, 40);
    as_user(65534, listed_user);
    if (operated) remove_rule();
    else EXPECT(control("remove closed 999999"), 1);
    EXPECT(cpg_finalize(hidden), CS_OK);
    EXPECT(cpg_finalize(open), CS_OK);
    return finish("rights");
}
