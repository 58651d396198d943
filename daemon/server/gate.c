/* The gate of fates; see gate.h.
 * A packet that is lost is asked for by the token and sent again by any node that has it, as the ring's rules say.
 * A token that can't come (its node is held, the pair is cut) rests: nothing is tried again and again meanwhile.
 * In a ring of one node no frame is on its way, so none has a fate. */
#include "gate.h"
#include <stdlib.h>
#include <string.h>

enum fate { FATE_BROUGHT, FATE_LOST, FATE_TWICE };

void gate_open(struct gate *gate, struct node *nodes, unsigned count, uint64_t seed) {
    gate->nodes = nodes;
    gate->count = count;
    gate->random = seed;
    for (unsigned k = 0; k < CPGRING_MOST_NODES; k++) {
        gate->first[k] = NULL;
        gate->last[k] = &gate->first[k];
        gate->waiting[k] = 0;
    }
    gate->token_len = 0;
    gate->token_from = count - 1;
}

/* splitmix64, by Sebastiano Vigna (public domain) */
static uint64_t next_random(struct gate *gate) {
    uint64_t z = gate->random += UINT64_C(0x9E3779B97F4A7C15);
    z = (z ^ (z >> 30)) * UINT64_C(0xBF58476D1CE4E5B9);
    z = (z ^ (z >> 27)) * UINT64_C(0x94D049BB133111EB);
    return z ^ (z >> 31);
}

static enum fate fate_of(struct gate *gate, unsigned from, unsigned to) {
    gate->frames++;
    if (gate->cut[from][to]) {
        gate->lost++;
        return FATE_LOST;
    }
    if (gate->lose == 0 && gate->repeat == 0) return FATE_BROUGHT;
    unsigned draw = (unsigned)(next_random(gate) % 100);
    if (draw < gate->lose) {
        gate->lost++;
        return FATE_LOST;
    }
    if (draw >= gate->lose + gate->repeat) return FATE_BROUGHT;
    gate->repeated++;
    return FATE_TWICE;
}

static void note_fault(struct gate *gate, uint32_t status) {
    if (status == CPGRING_RING_END || status == CPGRING_MEMORY) gate->fault = status;
}

/* ---- packets ---- */

static void keep_frame(struct gate *gate, unsigned to, const uint8_t *frame, size_t len) {
    struct held_frame *it = gate->waiting[to] < MOST_HELD_FRAMES ? malloc(sizeof *it + len) : NULL;
    if (!it) { /* as good as lost: it is asked for again */
        gate->lost++;
        return;
    }
    it->next = NULL;
    it->len = len;
    memcpy(it->at, frame, len);
    *gate->last[to] = it;
    gate->last[to] = &it->next;
    gate->waiting[to]++;
}

static void bring_packet(struct gate *gate, unsigned from, unsigned to, const uint8_t *frame, size_t len) {
    enum fate fate = fate_of(gate, from, to);
    for (unsigned times = fate == FATE_LOST ? 0 : fate == FATE_TWICE ? 2 : 1; times > 0; times--)
        if (gate->held[to]) keep_frame(gate, to, frame, len);
        else cpgring_frame(&gate->nodes[to].ring, frame, len); /* what it refuses, it has, or is not for it */
}

static void drop_frames(struct gate *gate, unsigned node, bool heard) {
    for (struct held_frame *it = gate->first[node], *next; it; it = next) {
        next = it->next;
        if (heard) cpgring_frame(&gate->nodes[node].ring, it->at, it->len);
        free(it);
    }
    gate->first[node] = NULL;
    gate->last[node] = &gate->first[node];
    gate->waiting[node] = 0;
}

void gate_forget(struct gate *gate) {
    for (unsigned k = 0; k < gate->count; k++) drop_frames(gate, k, false);
    gate->token_len = 0;
    gate->token_from = gate->count - 1;
}

void gate_hold(struct gate *gate, unsigned node) { gate->held[node] = true; }

void gate_let(struct gate *gate, unsigned node) {
    gate->held[node] = false;
    drop_frames(gate, node, true);
}

/* ---- the token ---- */

/* Brings what the node hands over on its way: packets to the others, the token towards the next. */
static void send_on(struct gate *gate, unsigned from) {
    static uint8_t frame[CPGRING_MOST_FRAME];
    size_t len;
    uint32_t route, status;
    while ((status = cpgring_next(&gate->nodes[from].ring, frame, sizeof frame, &len, &route)) == CPGRING_OK) {
        if (route == CPGRING_TO_NEXT) {
            memcpy(gate->token, frame, gate->token_len = len);
            gate->token_from = from;
            gate->token_to = (from + 1) % gate->count;
            continue;
        }
        for (unsigned to = 0; to < gate->count; to++)
            if (to != from) bring_packet(gate, from, to, frame, len);
    }
    note_fault(gate, status);
}

/* Whether the token can't come from where it is. */
static bool is_stopped(const struct gate *gate) {
    unsigned from = gate->token_from, to = (from + 1) % gate->count;
    return gate->held[to] || gate->held[from] || gate->cut[from][to];
}

/* A visit in a ring of one node, which sends nothing to anybody. */
static void visit_alone(struct gate *gate) {
    gate->visits++;
    note_fault(gate, cpgring_turn(&gate->nodes[0].ring));
}

/* One visit: the node whose turn it is hears the token, or, where that was lost, its sender makes it again. */
static void visit(struct gate *gate) {
    gate->visits++;
    if (gate->token_len == 0) {
        uint32_t status = cpgring_timer(&gate->nodes[gate->token_from].ring);
        note_fault(gate, status);
        if (status == CPGRING_OK || status == CPGRING_BUSY) send_on(gate, gate->token_from); /* busy: frames wait, for want of memory */
        return;
    }
    unsigned to = gate->token_to;
    enum fate fate = fate_of(gate, gate->token_from, to);
    if (fate == FATE_LOST) {
        gate->token_len = 0;
        return;
    }
    uint8_t again[CPGRING_MOST_FRAME];
    size_t again_len = fate == FATE_TWICE ? gate->token_len : 0;
    if (again_len) memcpy(again, gate->token, again_len);
    uint32_t status = cpgring_frame(&gate->nodes[to].ring, gate->token, gate->token_len);
    note_fault(gate, status);
    if (status == CPGRING_MEMORY) return; /* it is heard again */
    gate->token_len = 0;
    gate->token_from = to;
    send_on(gate, to);
    if (again_len) cpgring_frame(&gate->nodes[to].ring, again, again_len);
}

unsigned gate_next(const struct gate *gate) { return gate->token_len ? gate->token_to : (gate->token_from + 1) % gate->count; }

/* ---- pumping ---- */

static uint32_t highest_place(const struct gate *gate) {
    uint32_t highest = 0, places;
    uint64_t hops;
    for (unsigned k = 0; k < gate->count; k++)
        if (cpgring_reached(&gate->nodes[k].ring, &places, &hops) == CPGRING_OK && places > highest) highest = places;
    return highest;
}

bool gate_settled(const struct gate *gate) {
    size_t count;
    for (unsigned k = 0; k < gate->count; k++)
        if (cpgring_waiting(&gate->nodes[k].ring, &count) == CPGRING_OK && count > 0) return false;
    uint32_t highest = highest_place(gate);
    for (unsigned k = 0; k < gate->count; k++)
        if (gate->nodes[k].delivered < highest) return false;
    return true;
}

static void deliver(struct gate *gate, struct node *node) {
    cpgring_record record;
    uint32_t place, status;
    while ((status = cpgring_deliver(&node->ring, &place)) == CPGRING_OK)
        if (cpgring_audit(&node->ring, place, &record) == CPGRING_OK) node_delivered(node, place, &record);
    note_fault(gate, status);
}

/* Whether the token is to go on. */
static bool goes_on(const struct gate *gate) { return !gate->fault && !is_stopped(gate) && !gate_settled(gate); }

bool gate_pump(struct gate *gate, unsigned visits) {
    bool more = goes_on(gate);
    for (unsigned k = 0; k < visits && more; k++) {
        if (gate->count == 1) visit_alone(gate);
        else visit(gate);
        for (unsigned n = 0; n < gate->count; n++)
            if (!gate->held[n]) deliver(gate, &gate->nodes[n]);
        more = goes_on(gate);
    }
    return more;
}
