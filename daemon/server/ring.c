/* A ring of nodes and the next one; see ring.h.
 * An end goes so: no call is heard any more; what waits is delivered; the next ring is opened and has what carry.c brings;
 * nothing of that is told. The ring before stays until its last events were taken, and is closed beside the work. */
#include "ring.h"
#include "audit.h"
#include "carry.h"
#include "control.h"
#include "log.h"
#include "users.h"
#include <stdlib.h>
#include <string.h>
#include <time.h>

enum { NEW_LONG_NAMES = MOST_LONG_NAMES / 4, MOST_CONNECTED = 60000 };
enum { PLACES_FREED = 512 /* of a ring that ended, in a turn of the loop */ };

uint64_t now_us(void) {
    struct timespec t;
    clock_gettime(CLOCK_MONOTONIC, &t);
    return (uint64_t)t.tv_sec * 1000000 + (uint64_t)t.tv_nsec / 1000;
}

static uint32_t open_nodes(struct ring *ring, cpgring_fault *fault) {
    cpgring_setup setup = {ring->number, (uint8_t)ring->count, 1, CPGRING_MOST_PLACES, CPGRING_MOST_HOPS};
    uint32_t status = CPGRING_OK;
    for (unsigned k = 0; k < ring->count && status == CPGRING_OK; k++) {
        setup.node = (uint8_t)(k + 1);
        status = node_open(&ring->nodes[k], &setup, ring->conf, ring->conf_len, ring->names, ring->names_len, fault);
    }
    return status;
}

uint32_t ring_open(struct ring *ring, const struct options *options, cpgring_fault *fault) {
    ring->options = options;
    ring->count = options->nodes;
    ring->number = options->ring;
    gate_open(&ring->gate, ring->nodes, ring->count, options->seed);
    ring->gate.lose = options->lose;
    ring->gate.repeat = options->repeat;
    user_nodes = ring->nodes;
    user_count_nodes = ring->count;
    return open_nodes(ring, fault);
}

uint32_t ring_places_left(const struct ring *ring) {
    uint32_t delivered = ring->nodes[0].delivered, used = delivered > ring->carried ? delivered - ring->carried : 0;
    return used < ring->options->places ? ring->options->places - used : 0;
}

bool ring_is_due(const struct ring *ring) {
    const struct node *first = &ring->nodes[0];
    if (ring->end_wanted || ring_places_left(ring) == 0 || first->delivered_bytes >= ring->options->ring_bytes) return true;
    if (name_count() >= ring->carried_names + NEW_LONG_NAMES) return true; /* most of them may be nobody's any more */
    for (unsigned k = 0; k < ring->count; k++)
        if (ring->nodes[k].connected >= MOST_CONNECTED) return true;
    return false;
}

/* ---- the next ring ---- */

static uint32_t open_next(struct ring *ring, const struct carried *carried) {
    cpgring_fault fault;
    ring->delivered_before += ring->nodes[0].delivered;
    for (unsigned k = 0; k < ring->count; k++) {
        struct node *node = &ring->nodes[k];
        node->old = node->ring;
        node_tell_later(node);
        node->ring = (cpgring)CPGRING_INIT;
        node->to_free = 0;
        node_forget(node);
    }
    ring->number++;
    gate_forget(&ring->gate);
    uint32_t status = open_nodes(ring, &fault);
    return status == CPGRING_OK ? carry_into(ring, carried) : status;
}

/* Losses and cuts are for what clients ask: the next ring is made ready without them. */
static uint32_t open_next_quietly(struct ring *ring, const struct carried *carried) {
    struct gate *gate = &ring->gate;
    unsigned lose = gate->lose, repeat = gate->repeat;
    bool cut[CPGRING_MOST_NODES][CPGRING_MOST_NODES];
    memcpy(cut, gate->cut, sizeof cut);
    memset(gate->cut, 0, sizeof gate->cut);
    gate->lose = gate->repeat = 0;
    uint32_t status = open_next(ring, carried);
    memcpy(gate->cut, cut, sizeof cut);
    gate->lose = lose;
    gate->repeat = repeat;
    return status;
}

static bool renew(struct ring *ring) {
    struct carried carried = {0};
    uint64_t began = now_us();
    for (unsigned k = 0; k < ring->count; k++) {
        node_tell_old(&ring->nodes[k]); /* of two rings before, where somebody is so far behind */
        cpgring_close_into(&ring->nodes[k].old, &ring->nodes[k].ring);
        node_tell(&ring->nodes[k]);
    }
    control_ring_ends(ring);
    audit_ring_ends(ring);
    uint32_t status = carry_out(ring, &carried) ? open_next_quietly(ring, &carried) : CPGRING_MEMORY;
    carry_free(&carried);
    if (status != CPGRING_OK) {
        log_line(LOG_ERROR, "ring %u can't be made: %s", ring->number, cpgring_refusal_text(status));
        return false;
    }
    for (unsigned k = 0; k < ring->count; k++) node_tell_nothing(&ring->nodes[k]);
    ring->carried = ring->nodes[0].delivered;
    ring->carried_names = name_count();
    audit_ring_begins(ring);
    uint64_t took = now_us() - began;
    ring->renewals++;
    ring->all_pauses += took;
    if (took > ring->worst_pause) ring->worst_pause = took;
    log_line(LOG_INFO, "ring %u begins, with %u places taken over, in %llu us", ring->number, ring->carried, (unsigned long long)took);
    return true;
}

bool ring_step(struct ring *ring) {
    if (!ring->ending) {
        if (!ring_is_due(ring)) return true;
        ring->ending = true;
        for (unsigned k = 0; k < ring->count; k++) ring->nodes[k].closed_for_calls = true;
    }
    for (unsigned k = 0; k < ring->count; k++)
        if (ring->gate.held[k]) return true;
    if (!gate_settled(&ring->gate)) return true;
    if (!renew(ring)) return false;
    ring->ending = ring->end_wanted = false;
    for (unsigned k = 0; k < ring->count; k++) {
        ring->nodes[k].closed_for_calls = false;
        for (struct client *c = ring->nodes[k].clients; c; c = c->next) client_activate(c);
    }
    return true;
}

static bool can_close_old(const struct node *node) { return node->old.live && node_told_old(node); }

static bool has_to_free(const struct node *node) { return node->to_free > 0 || can_close_old(node); }

bool ring_takes_long(const struct ring *ring) {
    const struct node *first = &ring->nodes[0];
    return ring->ending || first->old.live || first->to_free > 0 || ring_is_due(ring);
}

/* To close a node at once takes a time that grows with its places. */
static void free_some(struct node *node) {
    if (node->to_free == 0) cpgring_close_into(&node->old, &node->ring);
    cpgring_shed(&node->ring, PLACES_FREED, &node->to_free);
}

bool ring_close_old(struct ring *ring) {
    unsigned k = 0, more = 0;
    while (k < ring->count && !has_to_free(&ring->nodes[k])) k++;
    if (k < ring->count) free_some(&ring->nodes[k]);
    for (; k < ring->count; k++) more += has_to_free(&ring->nodes[k]);
    return more > 0;
}

void ring_close(struct ring *ring) {
    for (unsigned k = 0; k < ring->count; k++) node_close(&ring->nodes[k]);
    gate_forget(&ring->gate);
}
