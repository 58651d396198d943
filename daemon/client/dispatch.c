/* Dispatching: events that came are handed to the program's callbacks, in their order.
 * A callback may make any call of the interface on the same handle, cpg_dispatch and cpg_finalize too.
 * No lock but the dispatching one is held meanwhile, so other threads go on sending and asking. */
#include "instance.h"
#include <poll.h>
#include <stdlib.h>
#include <string.h>

enum { STEP_MS = 1000, MOST_TOLD_NODES = 8 };

/* ---- frames that are whole ---- */

static bool pin(struct instance *i, struct buffer *b) {
    struct pinned *p = malloc(sizeof *p);
    if (!p) return false;
    *p = (struct pinned){i->pinned, b->at};
    i->pinned = p;
    *b = (struct buffer){0};
    return true;
}

static void unpin(struct instance *i) {
    for (struct pinned *p = i->pinned, *next; p; p = next) {
        next = p->next;
        free(p->at);
        free(p);
    }
    i->pinned = NULL;
}

void dispatch_free(struct instance *i) { unpin(i); }

/* Brings what was read to `now`, and gives reading the buffer that was dispatched, unless a callback further out still looks
 * at that. The lock `in` is held. */
static bool swap(struct instance *i) {
    struct buffer whole = i->read, other = i->now;
    size_t left = whole.end - i->parsed;
    if (i->depth > 1 && other.at && !pin(i, &other)) return false;
    if (other.room > KEPT_ROOM) {
        free(other.at);
        other = (struct buffer){0};
    }
    other.begin = other.end = 0;
    uint8_t *at = buffer_room(&other, left > READ_AT_ONCE ? left : READ_AT_ONCE);
    if (!at) {
        i->now = other;
        i->now.begin = i->now.end = 0;
        return false;
    }
    memcpy(at, whole.at + i->parsed, left);
    other.end = left;
    whole.end = i->parsed;
    i->now = whole;
    i->read = other;
    i->parsed = 0;
    return true;
}

/* Whether there is a whole frame in `now`, once what came was read. */
static bool refill(struct instance *i) {
    if (i->now.begin < i->now.end) return true;
    pthread_mutex_lock(&i->in);
    if (i->read.begin == i->parsed && (!i->drained || lanes_hold(i))) stream_fetch(i);
    bool there = i->read.begin < i->parsed && swap(i);
    i->now_left = there;
    pthread_mutex_unlock(&i->in);
    return there;
}

/* ---- events ---- */

static void tell_nodes(struct instance *i) {
    struct cpg_ring_id id = {1, i->hello.ring};
    uint32_t nodes[MOST_TOLD_NODES], count = i->hello.nodes < MOST_TOLD_NODES ? i->hello.nodes : MOST_TOLD_NODES;
    if (i->first_change || i->closed) return;
    i->first_change = true;
    if (!i->model.cpg_totem_confchg_fn || !(i->model.flags & CPG_MODEL_V1_DELIVER_INITIAL_TOTEM_CONF)) return;
    for (uint32_t k = 0; k < count; k++) nodes[k] = k + 1;
    i->model.cpg_totem_confchg_fn(i->handle, id, count, nodes);
}

static void copy_addresses(struct cpg_address *to, const uint8_t *from, size_t count) {
    for (size_t k = 0; k < count; k++, from += sizeof(struct told_process)) {
        struct told_process p;
        memcpy(&p, from, sizeof p);
        to[k] = (struct cpg_address){p.node, p.pid, p.reason};
    }
}

static bool change_event(struct instance *i, const uint8_t *body, uint32_t len) {
    struct tell_change told;
    struct cpg_name name = {0, {0}};
    if (len < sizeof told) return false;
    memcpy(&told, body, sizeof told);
    size_t count = (size_t)told.members + told.left + told.joined, lists = count * sizeof(struct told_process);
    if (told.name_len > MOST_NAME || lists + told.name_len > len - sizeof told) return false;
    struct cpg_address *all = calloc(count + 1, sizeof *all), *left = all ? all + told.members : NULL;
    if (!all) {
        i->broken = true;
        return false;
    }
    copy_addresses(all, body + sizeof told, count);
    name.length = told.name_len;
    memcpy(name.value, body + sizeof told + lists, told.name_len);
    for (uint32_t k = 0; k < told.left; k++) pieces_drop(i, left[k].nodeid, left[k].pid);
    if (i->model.cpg_confchg_fn)
        i->model.cpg_confchg_fn(i->handle, &name, all, told.members, left, told.left, left + told.left, told.joined);
    free(all);
    tell_nodes(i);
    return true;
}

static bool message_event(struct instance *i, uint8_t *body, uint32_t len) {
    struct tell_message told;
    struct cpg_name name = {0, {0}};
    if (len < sizeof told) return false;
    memcpy(&told, body, sizeof told);
    size_t filled = ((size_t)told.message_len + 7) & ~(size_t)7;
    if (told.name_len > MOST_NAME || filled + told.name_len > len - sizeof told) return false;
    name.length = told.name_len;
    memcpy(name.value, body + sizeof told + filled, told.name_len);
    return pieces_deliver(i, &name, &told, body + sizeof told);
}

/* The next frame. Whether a callback was made. */
static bool dispatch_one(struct instance *i) {
    struct head head;
    memcpy(&head, i->now.at + i->now.begin, sizeof head);
    uint8_t *body = i->now.at + i->now.begin + sizeof head;
    i->now.begin += sizeof head + head.len;
    if (i->now.begin == i->now.end) i->now_left = false;
    if (head.kind == TELL_MESSAGE) return message_event(i, body, head.len);
    if (head.kind == TELL_CHANGE) return change_event(i, body, head.len);
    return false;
}

/* ---- the call ---- */

/* Has the next refill read the socket; a dispatch that found it empty does not ask again by itself. */
static void look_again(struct instance *i, bool in_vain) {
    pthread_mutex_lock(&i->in);
    i->drained = false;
    lanes_settle(i, in_vain);
    stream_mark(i);
    pthread_mutex_unlock(&i->in);
}

/* Whether something came while the bell was silenced, where there are lanes. */
static bool settle(struct instance *i, bool in_vain) {
    if (!i->memory) return false;
    pthread_mutex_lock(&i->in);
    bool came = lanes_settle(i, in_vain);
    pthread_mutex_unlock(&i->in);
    return came;
}

/* What another thread reads of the socket is told by the descriptor, too. */
static void wait_for_events(struct instance *i) {
    struct pollfd p = {i->poll_fd, POLLIN, 0};
    uint64_t began = clock_ns();
    if (!lanes_look(i, began + i->dispatch_spin.now)) {
        look_again(i, true);
        poll(&p, 1, STEP_MS);
    }
    spin_learn(&i->dispatch_spin, clock_ns() - began);
    if (i->rest_left) stream_flush_any(i);
}

static cs_error_t dispatch_all(struct instance *i, bool one, bool blocks, bool *called) {
    bool in_vain = true;
    while (!i->closed && !(one && *called)) {
        if (refill(i)) {
            in_vain = false;
            if (dispatch_one(i)) *called = true;
        } else if (i->broken) return CS_ERR_LIBRARY;
        else if (blocks) wait_for_events(i);
        else if (!settle(i, in_vain)) break;
        else in_vain = false;
    }
    return CS_OK;
}

PUBLIC cs_error_t cpg_dispatch(cpg_handle_t handle, cs_dispatch_flags_t flags) {
    struct instance *i = instance_get(handle);
    bool called = false, one = flags == CS_DISPATCH_ONE || flags == CS_DISPATCH_ONE_NONBLOCKING;
    bool blocks = flags == CS_DISPATCH_ONE || flags == CS_DISPATCH_BLOCKING;
    if (!i) return CS_ERR_BAD_HANDLE;
    if (flags < CS_DISPATCH_ONE || flags > CS_DISPATCH_ONE_NONBLOCKING) {
        instance_put(i);
        return CS_ERR_INVALID_PARAM;
    }
    if (i->rest_left) stream_flush_any(i);
    pthread_mutex_lock(&i->dispatch);
    i->depth++;
    cs_error_t result = dispatch_all(i, one, blocks, &called);
    if (called) lanes_dispatched(i);
    if (--i->depth == 0) unpin(i);
    look_again(i, false);
    pthread_mutex_unlock(&i->dispatch);
    if (i->rest_left && i->memory) stream_flush_any(i); /* the bell may have rung for it, and was silenced */
    if (flags == CS_DISPATCH_ONE_NONBLOCKING && !called && result == CS_OK) result = CS_ERR_TRY_AGAIN;
    instance_put(i);
    return result;
}
