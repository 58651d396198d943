/* Whom each place told something, and who is a member of what: both as the node's own records say.
 * A listing is made where it is wanted, and is a picture of that moment; nothing is kept beside the node but the names of
 * groups whose rules were changed, since the node's listings have groups with members alone.
 * The work for a place is that of those whom it tells something. */
#include "node.h"
#include "log.h"
#include "users.h"
#include <stdlib.h>
#include <string.h>

enum { CALL_JOIN = 1, CALL_LEAVE = 2, CALL_SEND = 3, CALL_INSERT = 4, CALL_REMOVE = 5, CALL_GONE = 6 };

/* ---- listings ---- */

static bool seat_at(cpgring *ring, size_t index, struct seat *seat) {
    uint32_t place;
    if (cpgring_seat(ring, index, &place) != CPGRING_OK || cpgring_audit(ring, place, &seat->join) != CPGRING_OK) return false;
    seat->place = place;
    seat->name.len = (uint32_t)seat->join.group_len;
    return cpgring_audit_group(ring, place, seat->name.at, sizeof seat->name.at) == CPGRING_OK;
}

struct seat *seats_of(struct node *node, size_t *count) {
    *count = 0;
    if (cpgring_seats(&node->ring, count) != CPGRING_OK) return NULL;
    struct seat *seats = calloc(*count + 1, sizeof *seats);
    for (size_t k = 0; seats && k < *count; k++)
        if (!seat_at(&node->ring, k, &seats[k])) {
            free(seats);
            return NULL;
        }
    return seats;
}

static int by_name(const void *a, const void *b) {
    const struct seat *x = a, *y = b;
    uint32_t common = x->name.len < y->name.len ? x->name.len : y->name.len;
    int order = memcmp(x->name.at, y->name.at, common);
    if (order == 0) order = (x->name.len > y->name.len) - (x->name.len < y->name.len);
    return order ? order : (x->place > y->place) - (x->place < y->place);
}

void seats_by_group(struct seat *seats, size_t count) { qsort(seats, count, sizeof *seats, by_name); }

size_t seats_in_group(const struct seat *seats, size_t count) {
    size_t same = 0;
    while (same < count && name_same(&seats[same].name, &seats[0].name)) same++;
    return same;
}

static int by_connection(const void *a, const void *b) {
    const cpgring_record *x = &((const struct seat *)a)->join, *y = &((const struct seat *)b)->join;
    if (x->node != y->node) return x->node < y->node ? -1 : 1;
    return (x->conn > y->conn) - (x->conn < y->conn);
}

void seats_by_connection(struct seat *seats, size_t count) { qsort(seats, count, sizeof *seats, by_connection); }

const struct seat *seat_of(const struct seat *seats, size_t count, uint32_t node, uint32_t conn) {
    struct seat wanted = {.join = {.node = node, .conn = conn}};
    return bsearch(&wanted, seats, count, sizeof *seats, by_connection);
}

/* ---- groups with rules ---- */

static void table_note(struct node *node, uint32_t place, const cpgring_record *r) {
    struct name name = {.len = (uint32_t)r->group_len};
    if (cpgring_audit_group(&node->ring, place, name.at, sizeof name.at) != CPGRING_OK) return;
    struct table *t = node->tables;
    while (t && !name_same(&t->name, &name)) t = t->next;
    if (t) return;
    if (!(t = malloc(sizeof *t))) { /* the next ring would lack its rules */
        log_line(LOG_ERROR, "node %u: no memory for a table's name", node->setup.node);
        abort();
    }
    *t = (struct table){node->tables, name};
    node->tables = t;
}

/* ---- who is told ---- */

void note_told(struct node *node, struct client *c, uint64_t cost) {
    c->untaken += cost;
    if (c->told) return;
    if (node->count_told == node->room_told) {
        unsigned room = node->room_told ? 2 * node->room_told : 64;
        struct client **at = realloc(node->told, room * sizeof *at);
        if (!at) {
            client_end(c, END_NO_MEMORY);
            return;
        }
        node->told = at;
        node->room_told = room;
    }
    node->told[node->count_told++] = c;
    c->told = true;
}

/* About the bytes that telling a place takes in a member's buffer. */
static uint64_t cost_of(const cpgring_record *r) {
    if (r->call == CALL_SEND) return sizeof(struct head) + sizeof(struct tell_message) + fill8((uint32_t)r->message_len) + r->group_len;
    return sizeof(struct head) + sizeof(struct tell_change) + sizeof(struct told_process) * (r->members + 1) + r->group_len;
}

/* The connection was told something, if it is one of this node. */
static void note_connection(struct node *node, uint32_t of, uint32_t conn, uint64_t cost) {
    struct client *c = of == node->setup.node ? node->by_conn[conn] : NULL;
    if (c) note_told(node, c, cost);
}

void node_delivered(struct node *node, uint32_t place, const cpgring_record *r) {
    cpgring_process p;
    node->delivered = place;
    node->delivered_bytes += r->message_len;
    if (r->node == node->setup.node && r->call != CALL_GONE) user_call_placed(r->uid, r->node - 1);
    note_connection(node, r->node, r->conn, sizeof(struct head) + sizeof(struct tell_denied)); /* the first whom it tells something */
    if (r->verdict != CPGRING_ALLOWED) return;
    if (r->call == CALL_INSERT || r->call == CALL_REMOVE) table_note(node, place, r);
    for (size_t k = 1; k <= r->members && cpgring_notified(&node->ring, place, k, &p) == CPGRING_OK; k++)
        note_connection(node, p.node, p.conn, cost_of(r));
}

void node_forget(struct node *node) {
    for (struct table *t = node->tables, *next; t; t = next) {
        next = t->next;
        free(t);
    }
    node->tables = NULL;
    node->delivered = 0;
    node->delivered_bytes = 0;
    node->connected = 0;
}
