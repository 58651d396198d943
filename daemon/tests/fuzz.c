/* Bytes of a client, as a fuzzer makes them: a ring of two nodes with an honest member at each, and hostile clients.
 * The first byte of each part says what happens: bytes come of one of three hostile clients, one is gone, or the ring ends.
 * Whatever comes, the honest members are told each other's messages, all and in order. */
#include "../server/control.h"
#include "../server/ring.h"
#include "../server/users.h"
#include <corosync/corotypes.h>
#include <stdio.h>
#include <stdlib.h>
#include <string.h>

enum { HOSTILE = 3, ROUNDS = 50 };

static struct ring ring;
static struct options options = {.nodes = 2, .seed = 1, .places = 500, .ring_bytes = 1 << 20, .ring = 1};
static struct client *honest[2], *hostile[HOSTILE];
static uint32_t sent, seen[2], next_of[2][2];
static uint64_t order[2];

static void need(bool holds, const char *what) {
    if (holds) return;
    fprintf(stderr, "fuzz: %s\n", what);
    abort();
}

static void put(struct client *c, uint16_t kind, const void *body, uint32_t len) {
    struct head head = {len, kind, 1};
    uint8_t *at = bytes_room(&c->in, sizeof head + len);
    need(at != NULL, "memory");
    memcpy(at, &head, sizeof head);
    if (len) memcpy(at + sizeof head, body, len);
    c->in.end += sizeof head + len;
    client_activate(c);
}

/* The next bytes that a client is told, which may be in several pieces of memory. */
static void read_front(struct client *c, void *to, size_t len) {
    struct iovec piece;
    for (size_t have = 0; have < len;) {
        need(out_front(&c->out, &piece, 1) == 1, "a frame that is not whole");
        size_t step = piece.iov_len < len - have ? piece.iov_len : len - have;
        if (step) memcpy((uint8_t *)to + have, piece.iov_base, step);
        out_drop(&c->out, step);
        have += step;
    }
}

/* Messages of the honest members come once each, each one's in their order, and all in one order at both. */
static void read_honest(unsigned k) {
    static uint8_t body[1 << 20];
    while (out_held(&honest[k]->out) > 0) {
        struct head head;
        read_front(honest[k], &head, sizeof head);
        need(head.len <= sizeof body && head.len % 8 == 0, "a frame's length");
        read_front(honest[k], body, head.len);
        if (head.kind != TELL_MESSAGE) continue;
        struct tell_message told;
        uint32_t number;
        memcpy(&told, body, sizeof told);
        memcpy(&number, body + sizeof told, sizeof number);
        if (told.message_len < 4) number = told.message_len;
        if (told.pid < 10) {
            need(told.message_len == 4 && number == next_of[k][told.pid - 1], "a message that is lost or out of order");
            next_of[k][told.pid - 1] += 2;
            seen[k]++;
        }
        order[k] = order[k] * 31 + told.pid * 7 + number;
    }
}

static void turn(void) {
    for (unsigned k = 0; k < ring.count; k++) {
        ring.nodes[k].listings = MOST_LISTINGS;
        for (struct client *c = ring.nodes[k].clients; c; c = c->next) {
            c->blocked = false;
            client_hear(c, 50);
        }
    }
    gate_pump(&ring.gate, 50);
    for (unsigned k = 0; k < ring.count; k++) node_tell(&ring.nodes[k]);
    for (unsigned k = 0; k < 2; k++) read_honest(k);
    for (unsigned k = 0; k < HOSTILE; k++) {
        if (!hostile[k]) continue;
        if (hostile[k]->auditing) control_go_on(hostile[k]);
        out_drop(&hostile[k]->out, out_held(&hostile[k]->out));
        client_account(hostile[k]);
        if (hostile[k]->end == END_NOT) continue;
        client_free(hostile[k]);
        hostile[k] = NULL;
    }
    for (unsigned k = 0; k < ring.count; k++) gate_let(&ring.gate, k);
    memset(ring.gate.cut, 0, sizeof ring.gate.cut);
    need(ring_step(&ring), "the next ring");
    ring_close_old(&ring);
    for (unsigned k = 0; k < 2; k++) need(honest[k]->end == END_NOT, "an honest client is ended");
}

static void come(unsigned k, bool greets) {
    uint32_t version = PROTOCOL_VERSION;
    hostile[k] = client_new(&ring.nodes[k % 2], 100 + k, k == 0 ? 0 : 7, 7); /* the first is an operator */
    need(hostile[k] != NULL, "memory");
    if (greets) put(hostile[k], ASK_HELLO, &version, sizeof version);
}

static void begin(void) {
    static const char conf[] = "uidgid {\nuid: 7\n}\n";
    cpgring_fault fault;
    uint32_t version = PROTOCOL_VERSION;
    limits = (struct limits){.unread = 1 << 20, .user_unread = 4 << 20, .connections = 100, .user_connections = 100, .user_calls = 200,
                             .user_ungreeted = 10, .greet_seconds = 5, .room = 64 << 10};
    memset(&ring, 0, sizeof ring);
    ring.conf = conf, ring.conf_len = sizeof conf - 1, ring.names = "", ring.names_len = 0;
    need(ring_open(&ring, &options, &fault) == CPGRING_OK, "opening");
    control_open(&ring);
    sent = seen[0] = seen[1] = 0;
    order[0] = order[1] = 0;
    next_of[0][0] = next_of[1][0] = 0, next_of[0][1] = next_of[1][1] = 1;
    for (unsigned k = 0; k < 2; k++) {
        need((honest[k] = client_new(&ring.nodes[k], 1 + k, 0, 0)) != NULL, "memory");
        put(honest[k], ASK_HELLO, &version, sizeof version);
        put(honest[k], ASK_JOIN, "honest", 6);
    }
    turn(), turn();
}

static void end(void) {
    ring.gate.lose = ring.gate.repeat = 0; /* an operator may have asked for more losses than these rounds make good */
    for (unsigned k = 0; k < ROUNDS && (seen[0] < sent || seen[1] < sent); k++) turn();
    need(seen[0] == sent && seen[1] == sent, "messages that are not told");
    need(order[0] == order[1], "two orders");
    memset(hostile, 0, sizeof hostile);
    ring_close(&ring);
}

int LLVMFuzzerTestOneInput(const uint8_t *data, size_t size);

int LLVMFuzzerTestOneInput(const uint8_t *data, size_t size) {
    begin();
    while (size > 1) {
        unsigned what = data[0], who = what % HOSTILE;
        size_t len = data[1] + (what & 0x40 ? 256 * (size_t)(what >> 2 & 15) : 0);
        data += 2, size -= 2;
        if (len > size) len = size;
        if (what == 0xFE) ring.end_wanted = true;
        if (what == 0xFF && hostile[who]) client_end(hostile[who], END_CLOSED);
        if (!hostile[who]) come(who, !(what & 0x80));
        uint8_t *at = bytes_room(&hostile[who]->in, len);
        need(at != NULL, "memory");
        if (len) memcpy(at, data, len);
        hostile[who]->in.end += len;
        data += len, size -= len;
        put(honest[sent % 2], ASK_SEND, &sent, sizeof sent);
        sent++;
        turn();
    }
    end();
    return 0;
}
