/* Lets each allocation of a small ring, and of a node with clients, fail in turn: the call has to answer CPGRING_MEMORY, and the same call made again
 * has to do what it would have done, so that all that is told is the same. Linked with --wrap=malloc,--wrap=realloc. */
#include "cpgring_served.h"

#include "../daemon/protocol.h"
#include <stdio.h>
#include <stdlib.h>
#include <string.h>

void *__real_malloc(size_t size);
void *__real_realloc(void *at, size_t size);
void *__wrap_malloc(size_t size);
void *__wrap_realloc(void *at, size_t size);

static long until = -1; /* how many allocations are given before one is refused; never, where it is below 0 */
static bool refused, differs;

static bool is_refused(void) {
    if (until < 0 || until-- > 0) return false;
    return refused = true;
}

void *__wrap_malloc(size_t size) { return is_refused() ? NULL : __real_malloc(size); }
void *__wrap_realloc(void *at, size_t size) { return is_refused() ? NULL : __real_realloc(at, size); }

static void wanted(const char *what, uint32_t status, uint32_t other, int line) {
    if (status == other) return;
    fprintf(stderr, "failing.c:%d: %s answers %s\n", line, what, cpgring_refusal_text(status));
    differs = true;
}

/* makes a call again where it was refused for want of memory, which has to be for the one allocation */
#define DO(call, status)                                          \
    do {                                                          \
        bool before = refused;                                    \
        uint32_t found = (call);                                  \
        if (found == CPGRING_MEMORY && refused && !before) found = (call); \
        wanted(#call, found, (status), __LINE__);                 \
    } while (0)

/* A ring of one node: a join, a message, a rule, listings, and the end. How many bytes were told. */
static size_t play(void) {
    static const uint32_t users[] = {7, 8, 9}, groups[] = {1};
    static uint8_t frame[CPGRING_MOST_FRAME], message[100];
    const cpgring_setup setup = {1, 1, 1, 100, 100};
    const cpgring_rule rule = {0, CPGRING_DENY, CPGRING_RIGHT_JOIN, true, false, false, 8, 0, 0};
    cpgring ring = CPGRING_INIT, next = CPGRING_INIT;
    cpgring_event event;
    bool refused_before = false;
    uint16_t conn = 0;
    uint32_t place = 0, route = 0;
    size_t len = 0, count = 0, told = 0;
    DO(cpgring_open(&ring, &setup, users, 3, groups, 1), CPGRING_OK);
    DO(cpgring_connect(&ring, 40, 0, 100, &conn), CPGRING_OK);
    DO(cpgring_join(&ring, conn, (const uint8_t *)"a-name-of-more-than-16-bytes", 28), CPGRING_OK);
    DO(cpgring_send(&ring, conn, message, sizeof message), CPGRING_OK);
    DO(cpgring_insert(&ring, conn, (const uint8_t *)"db", 2, 0, &rule), CPGRING_OK);
    DO(cpgring_timer(&ring), CPGRING_OK);
    DO(cpgring_next(&ring, frame, sizeof frame, &len, &route), CPGRING_OK);
    DO(cpgring_frame(&ring, frame, len), CPGRING_OK);
    while (cpgring_next(&ring, frame, sizeof frame, &len, &route) == CPGRING_OK) told += len;
    for (uint32_t k = 1; k <= 3; k++) DO(cpgring_deliver(&ring, &place), CPGRING_OK);
    for (uint32_t k = 1; k <= 5; k++) {
        DO(cpgring_take(&ring, conn, &event), CPGRING_OK);
        told += event.group_len + event.message_len + event.members;
    }
    DO(cpgring_take(&ring, conn, &event), CPGRING_NONE);
    DO(cpgring_list(&ring, conn, (const uint8_t *)"a-name-of-more-than-16-bytes", 28, &count), CPGRING_OK);
    DO(cpgring_groups(&ring, conn, &count), CPGRING_OK);
    DO(cpgring_leave(&ring, conn), CPGRING_OK);
    DO(cpgring_turn(&ring), CPGRING_OK);
    DO(cpgring_deliver(&ring, &place), CPGRING_OK);
    DO(cpgring_join(&ring, conn, (const uint8_t *)"a", 1), CPGRING_OK);
    DO(cpgring_turn(&ring), CPGRING_OK);
    DO(cpgring_deliver(&ring, &place), CPGRING_OK);
    DO(cpgring_seats(&ring, &count), CPGRING_OK);
    told += count;
    DO(cpgring_seat(&ring, 0, &place), CPGRING_OK);
    told += place;
    DO(cpgring_disconnect(&ring, conn), CPGRING_OK);
    DO(cpgring_open(&next, &setup, users, 3, groups, 1), CPGRING_OK);
    refused_before = refused;
    DO(cpgring_close_into(&ring, &next), CPGRING_OK);
    DO(cpgring_shed(&next, 3, &len), CPGRING_OK);
    if (refused != refused_before) differs = true; /* neither allocates */
    told += len;
    DO(cpgring_close(&next), CPGRING_OK);
    return told + count;
}

static uint8_t asks[512];
static size_t said;

static void say(uint16_t kind, const void *body, uint32_t len) {
    struct head head = {len, kind, 1};
    memcpy(asks + said, &head, sizeof head);
    memcpy(asks + said + sizeof head, body, len);
    said += sizeof head + len;
}

/* Has all asks of a client heard; the next one is heard again where there was no memory for it. */
static void hear(cpgring_served *node, uint16_t conn) {
    size_t at = 0;
    while (at < said) {
        size_t heard = 0;
        uint32_t why = CPGRING_HEARD_BROKEN;
        bool before = refused;
        DO(cpgring_served_hear(node, conn, asks + at, said - at, &heard, &why), CPGRING_OK);
        at += heard;
        bool again = why == CPGRING_HEARD_NO_MEMORY && refused && !before;
        if (!again && (why != CPGRING_HEARD_ALL || at < said)) {
            differs = true;
            break;
        }
    }
    said = 0;
}

/* All that a client is told, written. */
static size_t written(cpgring_served *node, uint16_t conn) {
    const uint8_t *at = NULL;
    size_t len = 0;
    DO(cpgring_served_output(node, conn, &at, &len), CPGRING_OK);
    DO(cpgring_served_wrote(node, conn, len), CPGRING_OK);
    return len;
}

/* A node with two clients that meet, say something, list and part, and the next ring. How many bytes were told. */
static size_t serve(void) {
    static const char conf[] = "uidgid {\n uid: 7\n}\n", message[100];
    static const uint32_t hello[2] = {PROTOCOL_VERSION, 0}, members = 1;
    const cpgring_setup setup = {1, 1, 1, 100, 100};
    cpgring_served node = CPGRING_SERVED_INIT;
    cpgring_fault fault;
    uint16_t one = 0, two = 0, numbers[2] = {0, 0};
    size_t told = 0;
    DO(cpgring_served_open(&node, &setup, asks, 0, (const uint8_t *)conf, sizeof conf - 1, &fault), CPGRING_OK);
    DO(cpgring_served_arrive(&node, 40, 7, 100, &one), CPGRING_OK);
    DO(cpgring_served_arrive(&node, 41, 0, 100, &two), CPGRING_OK);
    for (uint16_t conn = one; conn <= two; conn++) {
        say(ASK_HELLO, hello, sizeof hello);
        say(ASK_JOIN, "a-name-of-more-than-16-bytes", 28);
        say(ASK_SEND, message, sizeof message);
        hear(&node, conn);
    }
    DO(cpgring_served_settle(&node), CPGRING_OK);
    say(ASK_MEMBERS, "a-name-of-more-than-16-bytes", 28);
    say(ASK_GROUPS, &members, sizeof members);
    hear(&node, one);
    DO(cpgring_served_lost(&node, two), CPGRING_OK);
    DO(cpgring_served_renew(&node, &setup, asks, 0, (const uint8_t *)conf, sizeof conf - 1, &fault, numbers, 2), CPGRING_OK);
    told = written(&node, numbers[0]);
    say(ASK_SEND, message, sizeof message);
    hear(&node, numbers[0]);
    DO(cpgring_served_settle(&node), CPGRING_OK);
    told += written(&node, numbers[0]);
    DO(cpgring_served_close(&node), CPGRING_OK);
    return told;
}

int main(void) {
    size_t told = play() + serve();
    long turns = 0;
    do {
        refused = false;
        until = turns++;
        if (play() + serve() != told) differs = true;
    } while (refused && !differs && turns < 10000);
    printf("%ld allocations refused in turn: %s\n", turns - 1, differs ? "FAILED" : "each call could be made again");
    return differs;
}
