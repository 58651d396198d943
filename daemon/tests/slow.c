/* slow CTL: a member that reads nothing while messages come and rings end, and then reads: it is told all of them, in their
 * order, each with all its bytes. CTL is cpgringctl. Messages of 900 to 8,192 bytes are more than a socket and the daemon keep
 * ready, so some are lent by a ring that ends, some by the next one, and some stay in a ring that ended. */
#include "common.h"

enum { MESSAGES = 600, LEAST = 900, MOST_BODY = 16384 };

static const char *ctl;
static unsigned got;

static size_t length_of(uint32_t number) { return LEAST + number * 37 % (8192 - LEAST + 1); }

static uint8_t byte_at(uint32_t number, size_t k) { return (uint8_t)(number * 31 + k * 7); }

static void deliver(cpg_handle_t h, const struct cpg_name *g, uint32_t node, uint32_t pid, void *message, size_t len) {
    (void)h, (void)g, (void)node, (void)pid, (void)message, (void)len;
    got++;
}

static void renew(void) {
    char line[400];
    snprintf(line, sizeof line, "%s -w 60 renew", ctl);
    EXPECT(system(line), 0);
}

static void dispatch_until(cpg_handle_t h, unsigned wanted) {
    for (uint64_t end = now_ms() + 60000; got < wanted && now_ms() < end; pause_ms(1)) EXPECT(cpg_dispatch(h, CS_DISPATCH_ALL), CS_OK);
    EXPECT(got, wanted);
}

static void await_members(cpg_handle_t h, const struct cpg_name *group) {
    struct cpg_address list[CPG_MEMBERS_MAX];
    struct cpg_name name = *group;
    int members = 0;
    for (uint64_t end = now_ms() + 60000; members < 2 && now_ms() < end; pause_ms(5)) EXPECT(cpg_membership_get(h, &name, list, &members), CS_OK);
    EXPECT(members, 2);
}

static void send_all(cpg_handle_t h) {
    static uint8_t bytes[8192];
    for (uint32_t number = 0; number < MESSAGES; number++) {
        struct iovec part = {bytes, length_of(number)};
        for (size_t k = 0; k < part.iov_len; k++) bytes[k] = byte_at(number, k);
        cs_error_t status;
        while ((status = cpg_mcast_joined(h, CPG_TYPE_AGREED, &part, 1)) == CS_ERR_TRY_AGAIN) EXPECT(cpg_dispatch(h, CS_DISPATCH_ALL), CS_OK);
        EXPECT(status, CS_OK);
        if (number % 150 != 0) continue;
        dispatch_until(h, number + 1);
        renew();
    }
    dispatch_until(h, MESSAGES);
}

/* Reads the frame of the next message of that process. */
static bool next_message(int fd, uint32_t pid, struct tell_message *told, uint8_t *body) {
    struct head head;
    do {
        if (recv(fd, &head, sizeof head, MSG_WAITALL) != (ssize_t)sizeof head || head.len > MOST_BODY) return false;
        if (recv(fd, body, head.len, MSG_WAITALL) != (ssize_t)head.len) return false;
        if (head.kind == TELL_MESSAGE) memcpy(told, body, sizeof *told);
    } while (head.kind != TELL_MESSAGE || told->pid != pid);
    EXPECT(head.len, sizeof *told + fill8(told->message_len) + fill8(told->name_len));
    EXPECT(told->name_len, 4);
    EXPECT(memcmp(body + sizeof *told + fill8(told->message_len), "slow", 4), 0);
    return true;
}

static void read_all(int fd, uint32_t pid) {
    static uint8_t body[MOST_BODY];
    for (uint32_t number = 0; number < MESSAGES; number++) {
        struct tell_message told;
        unsigned wrong = 0;
        if (!next_message(fd, pid, &told, body)) {
            EXPECT(number, MESSAGES);
            return;
        }
        EXPECT(told.message_len, length_of(number));
        for (size_t k = 0; k < told.message_len; k++) wrong += body[sizeof told + k] != byte_at(number, k);
        EXPECT(wrong, 0);
    }
}

int main(int count, char **words) {
    cpg_callbacks_t callbacks = {deliver, NULL};
    struct cpg_name group = name_of("slow");
    cpg_handle_t h;
    if (count != 2) return 2;
    ctl = words[1];
    pid_t sender = fork();
    if (sender == 0) { /* a process is a member of a group once */
        EXPECT(cpg_initialize(&h, &callbacks), CS_OK);
        EXPECT(cpg_join(h, &group), CS_OK);
        await_members(h, &group);
        send_all(h);
        renew();
        renew();
        _exit(failures > 0);
    }
    int fd = raw_dial();
    EXPECT(raw_greet(fd), CS_OK);
    EXPECT(raw_ask(fd, ASK_JOIN, "slow", 4), CS_OK);
    EXPECT(status_of(sender), 0);
    read_all(fd, (uint32_t)sender);
    close(fd);
    return finish("slow");
}
