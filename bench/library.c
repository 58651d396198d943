/* Times nodes of the C library, all of one ring, in one process.
 *
 *     library ring NODES SIZE PLACES   messages of SIZE bytes take PLACES places, reach all nodes, and are delivered
 *     library take SIZE PLACES         the same at one node alone, whose connection takes what it is told, too
 *     library forged VISITS            a node hears tokens that claim all places, one after the other
 *
 * Prints the nanoseconds that this took, and how many there were of what its last word counts. */
#include "cpgring.h"

#include <stdio.h>
#include <stdlib.h>
#include <string.h>
#include <time.h>

enum { BURST = 8 };

static cpgring nodes[CPGRING_MOST_NODES + 1];
static unsigned node_count;
static uint8_t message[CPGRING_MOST_MESSAGE];

static void fail(const char *call, uint32_t status) {
    fprintf(stderr, "library: %s: %s\n", call, cpgring_refusal_text(status));
    exit(1);
}

static void expect(const char *call, uint32_t status) {
    if (status != CPGRING_OK) fail(call, status);
}

static uint64_t nanoseconds(void) {
    struct timespec now;
    clock_gettime(CLOCK_MONOTONIC, &now);
    return (uint64_t)now.tv_sec * 1000000000u + (uint64_t)now.tv_nsec;
}

/* A ring of so many nodes, each with a connection of the root user. */
static void open_all(unsigned count) {
    const uint32_t none[1] = {0};
    node_count = count;
    for (unsigned number = 1; number <= count; number++) {
        const cpgring_setup setup = {1, (uint8_t)count, (uint8_t)number, CPGRING_MOST_PLACES, CPGRING_MOST_HOPS};
        uint16_t conn;
        nodes[number] = (cpgring)CPGRING_INIT;
        expect("open", cpgring_open(&nodes[number], &setup, none, 0, none, 0));
        expect("connect", cpgring_connect(&nodes[number], 40, 0, 0, &conn));
    }
}

/* The node hears a frame; one that it holds already is no fault. */
static void hear(unsigned number, const uint8_t *frame, size_t length) {
    uint32_t status = cpgring_frame(&nodes[number], frame, length);
    if (status != CPGRING_HELD) expect("frame", status);
}

/* Hands over all that the node sends: packets to all other nodes, and then the token to the next. Gives that one. */
static unsigned send_all(unsigned number) {
    unsigned next = number % node_count + 1;
    uint8_t frame[CPGRING_MOST_FRAME];
    size_t length;
    uint32_t route = CPGRING_TO_ALL;
    while (route != CPGRING_TO_NEXT) {
        expect("next", cpgring_next(&nodes[number], frame, sizeof frame, &length, &route));
        for (unsigned other = 1; route == CPGRING_TO_ALL && other <= node_count; other++) {
            if (other != number) hear(other, frame, length);
        }
    }
    hear(next, frame, length);
    return next;
}

static uint32_t deliver_all(unsigned number) {
    uint32_t place = 0, status;
    do {
        status = cpgring_deliver(&nodes[number], &place);
    } while (status == CPGRING_OK);
    if (status != CPGRING_NONE) fail("deliver", status);
    expect("delivered", cpgring_delivered(&nodes[number], &place));
    return place;
}

static void take_all(unsigned number) {
    cpgring_event event;
    uint32_t status;
    do {
        status = cpgring_take(&nodes[number], 1, &event);
    } while (status == CPGRING_OK);
    if (status != CPGRING_NONE) fail("take", status);
}

/* The token goes round, each node sends eight messages before it comes, until the first node has delivered so many
 * places. */
static void go_round(size_t size, uint32_t places, bool takes) {
    const uint8_t group[] = "load";
    for (unsigned number = 1; number <= node_count; number++)
        expect("join", cpgring_join(&nodes[number], 1, group, sizeof group - 1));
    expect("timer", cpgring_timer(&nodes[node_count]));
    unsigned number = send_all(node_count);
    for (uint32_t delivered = 0; delivered < places;) {
        for (unsigned sent = 0; sent < BURST; sent++)
            expect("send", cpgring_send(&nodes[number], 1, message, size));
        unsigned next = send_all(number);
        uint32_t place = deliver_all(number);
        if (number == 1) delivered = place;
        if (takes) take_all(number);
        number = next;
    }
}

static void put(uint8_t *at, uint64_t number, unsigned bytes) {
    for (unsigned index = 0; index < bytes; index++) at[index] = (uint8_t)(number >> 8 * (bytes - 1 - index));
}

/* Node 1 of two hears a token that claims all places and asks for none, of one hop after the other. */
static void hear_forged(uint64_t visits) {
    uint8_t token[7 + 8 + 4 + 4 + 1 + 1] = {0x43, 2, 2};
    uint8_t answer[CPGRING_MOST_FRAME];
    size_t length;
    uint32_t route;
    put(token + 3, 1, 4);
    put(token + 15, CPGRING_MOST_PLACES, 4);
    for (uint64_t visit = 0; visit < visits; visit++) {
        put(token + 7, 2 * visit, 8);
        hear(1, token, sizeof token);
        while (cpgring_next(&nodes[1], answer, sizeof answer, &length, &route) == CPGRING_OK) {}
    }
}

static unsigned long number_of(const char *word, unsigned long most) {
    char *end;
    unsigned long number = strtoul(word, &end, 10);
    if (*word == 0 || *end != 0 || number > most) {
        fprintf(stderr, "library: no number up to %lu: %s\n", most, word);
        exit(2);
    }
    return number;
}

int main(int count, char **words) {
    uint64_t start = nanoseconds();
    memset(message, 'x', sizeof message);
    if (count == 5 && strcmp(words[1], "ring") == 0) {
        open_all((unsigned)number_of(words[2], CPGRING_MOST_NODES));
        go_round(number_of(words[3], CPGRING_MOST_MESSAGE), (uint32_t)number_of(words[4], CPGRING_MOST_PLACES - 512), false);
    } else if (count == 4 && strcmp(words[1], "take") == 0) {
        open_all(1);
        go_round(number_of(words[2], CPGRING_MOST_MESSAGE), (uint32_t)number_of(words[3], CPGRING_MOST_PLACES - 512), true);
    } else if (count == 3 && strcmp(words[1], "forged") == 0) {
        open_all(2);
        hear_forged(number_of(words[2], 1ul << 40));
    } else {
        fputs("usage: library ring NODES SIZE PLACES | take SIZE PLACES | forged VISITS\n", stderr);
        return 2;
    }
    printf("%llu %s\n", (unsigned long long)(nanoseconds() - start), words[count - 1]);
    for (unsigned number = 1; number <= node_count; number++) expect("close", cpgring_close(&nodes[number]));
    return 0;
}
