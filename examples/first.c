/* A first program over the node as a C library: a node that is alone in its ring lets a process in, which joins a group
 * and sends to it, and prints what that process is told.
 *
 *     make -C c && cc -Ic/include examples/first.c c/out/libcpgring.a -o first && ./first
 */
#include "cpgring.h"
#include <stdio.h>

/* Ends the program where a call is refused. */
#define DO(call)                                                                                                       \
    do {                                                                                                               \
        uint32_t status = (call);                                                                                      \
        if (status != CPGRING_OK) return fprintf(stderr, "%s: %s\n", #call, cpgring_refusal_text(status)), 1;          \
    } while (0)

/* Prints an event of the connection. */
static int tell(cpgring *ring, const cpgring_event *event) {
    uint8_t group[CPGRING_MOST_GROUP], message[CPGRING_MOST_MESSAGE];
    if (event->kind == CPGRING_VERDICT) {
        printf("place %u: %s\n", event->place, event->verdict == CPGRING_ALLOWED ? "allowed" : "denied");
    } else if (event->kind == CPGRING_CHANGE) {
        DO(cpgring_group(ring, group, sizeof group));
        printf("place %u: %.*s has %zu members\n", event->place, (int)event->group_len, (char *)group, event->members);
    } else if (event->kind == CPGRING_MESSAGE) {
        DO(cpgring_message(ring, message, sizeof message));
        printf("place %u: %u/%u says %.*s\n", event->place, event->node, event->pid, (int)event->message_len, (char *)message);
    }
    return 0;
}

int main(void) {
    cpgring ring = CPGRING_INIT;
    cpgring_setup setup = {.ring = 1, .nodes = 1, .node = 1, .places = 100, .hops = 1000};
    uint32_t users[] = {7}, groups[] = {100}, route, place;
    uint8_t frame[CPGRING_MOST_FRAME];
    size_t length;
    uint16_t conn;
    cpgring_event event;

    DO(cpgring_open(&ring, &setup, users, 1, groups, 0)); /* user 7, and no group beside 0 */
    DO(cpgring_connect(&ring, 40, 7, 100, &conn));        /* process 40 of user 7 */
    DO(cpgring_join(&ring, conn, (const uint8_t *)"db", 2));
    DO(cpgring_send(&ring, conn, (const uint8_t *)"hi", 2));

    DO(cpgring_timer(&ring)); /* the last node makes the first token, which goes to the next: here to itself */
    DO(cpgring_next(&ring, frame, sizeof frame, &length, &route));
    DO(cpgring_frame(&ring, frame, length));
    while (cpgring_next(&ring, frame, sizeof frame, &length, &route) == CPGRING_OK) {
        /* to be sent: to all other nodes where `route` is CPGRING_TO_ALL, and else to the next */
    }
    while (cpgring_deliver(&ring, &place) == CPGRING_OK)
        while (cpgring_take(&ring, conn, &event) == CPGRING_OK)
            if (tell(&ring, &event) != 0) return 1;
    DO(cpgring_close(&ring));
    return 0;
}
