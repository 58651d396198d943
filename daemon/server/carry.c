/* What a ring leaves to the next one; see carry.h.
 * The order of a group's members is kept by rounds: in one round of the token its nodes place what waits in the order in
 * which it comes to them, so members go together whose order that is. That it was kept is checked at the end. */
#include "carry.h"
#include "log.h"
#include <stdlib.h>
#include <string.h>

enum { BURST = 8 }; /* what a node places in one visit of the token */

struct carried_member {
    struct client *client;
    struct node *node;
    struct name code;
    size_t group; /* a number for each group */
    uint32_t place;
    bool asked; /* it was asked for in the next ring */
};

struct carried_table {
    struct name name;
    size_t count;
    cpgring_rule rules[CPGRING_MOST_RULES];
};

/* ---- taking down ---- */

static int by_place(const void *a, const void *b) {
    uint32_t x = ((const struct carried_member *)a)->place, y = ((const struct carried_member *)b)->place;
    return (x > y) - (x < y);
}

static bool take_members(struct ring *ring, struct carried *carried) {
    size_t count, step;
    struct seat *seats = seats_of(&ring->nodes[0], &count);
    carried->members = calloc(count + 1, sizeof *carried->members);
    if (!seats || !carried->members) {
        free(seats);
        return false;
    }
    seats_by_group(seats, count);
    for (size_t k = 0; k < count; k += step, carried->count_groups++) {
        step = seats_in_group(seats + k, count - k);
        for (const struct seat *seat = seats + k; seat < seats + k + step; seat++) {
            struct node *node = &ring->nodes[seat->join.node - 1];
            struct client *c = node->by_conn[seat->join.conn];
            if (c) carried->members[carried->count_members++] =
                       (struct carried_member){c, node, seat->name, carried->count_groups, seat->place, false};
        }
    }
    free(seats);
    qsort(carried->members, carried->count_members, sizeof *carried->members, by_place);
    return true;
}

static bool take_tables(struct ring *ring, struct carried *carried) {
    struct node *first = &ring->nodes[0];
    size_t count = 0;
    for (const struct table *t = first->tables; t; t = t->next) count++;
    carried->tables = calloc(count + 1, sizeof *carried->tables);
    if (!carried->tables) return false;
    for (const struct table *t = first->tables; t; t = t->next) {
        struct carried_table *to = &carried->tables[carried->count_tables];
        to->name = t->name;
        while (to->count < CPGRING_MOST_RULES &&
               cpgring_table(&first->ring, t->name.at, t->name.len, to->count, &to->rules[to->count]) == CPGRING_OK)
            to->count++;
        if (to->count > 0) carried->count_tables++;
    }
    return true;
}

static void sweep_names(const struct carried *carried) {
    names_unmark();
    for (size_t k = 0; k < carried->count_members; k++) names_mark(&carried->members[k].code);
    for (size_t k = 0; k < carried->count_tables; k++) names_mark(&carried->tables[k].name);
    names_sweep();
}

bool carry_out(struct ring *ring, struct carried *carried) {
    if (!take_members(ring, carried) || !take_tables(ring, carried)) return false;
    sweep_names(carried);
    return true;
}

void carry_free(struct carried *carried) {
    free(carried->members);
    free(carried->tables);
}

/* ---- putting there ---- */

static bool settle(struct ring *ring) {
    while (gate_pump(&ring->gate, 1000)) {}
    return ring->gate.fault == CPGRING_OK;
}

static uint32_t connect_clients(struct node *node) {
    for (struct client *c = node->clients; c; c = c->next) node->by_conn[c->conn] = NULL;
    for (struct client *c = node->clients; c; c = c->next) {
        if (!c->conn) continue;
        if (c->told) { /* the ring that ended has events left for it */
            c->old_conn = c->conn;
            node->lagging++;
        }
        uint32_t status = cpgring_connect(&node->ring, c->pid, c->uid, c->gid, &c->conn);
        if (status != CPGRING_OK) return status;
        node->by_conn[c->conn] = c;
        node->connected++;
    }
    return CPGRING_OK;
}

struct round {
    unsigned used[CPGRING_MOST_NODES]; /* joins of each node in this round */
    uint8_t *reached;                  /* of each group: how far in the round its last member is, from 1; UINT8_MAX: no more */
};

/* Asks for as many members as one round of the token places in their order. How many are left. */
static uint32_t ask_round(struct ring *ring, const struct carried *carried, struct round *round, size_t *left) {
    unsigned start = gate_next(&ring->gate);
    memset(round->used, 0, sizeof round->used);
    memset(round->reached, 0, carried->count_groups);
    *left = 0;
    for (size_t k = 0; k < carried->count_members; k++) {
        struct carried_member *m = &carried->members[k];
        if (m->asked) continue;
        unsigned node = (unsigned)m->node->setup.node - 1u;
        uint8_t turn = (uint8_t)((node + ring->count - start) % ring->count + 1);
        if (turn < round->reached[m->group] || round->used[node] == BURST) {
            round->reached[m->group] = UINT8_MAX;
            ++*left;
            continue;
        }
        uint32_t status = cpgring_join(&m->node->ring, m->client->conn, m->code.at, m->code.len);
        if (status != CPGRING_OK) return status;
        m->asked = true;
        round->used[node]++;
        round->reached[m->group] = turn;
    }
    return CPGRING_OK;
}

static int by_group(const void *a, const void *b) {
    const struct carried_member *x = a, *y = b;
    return x->group == y->group ? by_place(a, b) : x->group < y->group ? -1 : 1;
}

/* Whether each group has the members that were taken down, in their order. They are put together by groups. */
static bool is_kept(struct ring *ring, const struct carried *carried) {
    size_t count;
    struct seat *seats = seats_of(&ring->nodes[0], &count);
    bool kept = seats && count == carried->count_members;
    if (kept) {
        seats_by_group(seats, count);
        qsort(carried->members, count, sizeof *carried->members, by_group);
    }
    for (size_t k = 0; kept && k < count; k++) {
        const struct carried_member *m = &carried->members[k];
        kept = seats[k].join.node == m->node->setup.node && seats[k].join.conn == m->client->conn && name_same(&seats[k].name, &m->code);
    }
    free(seats);
    return kept;
}

static uint32_t seat_members(struct ring *ring, const struct carried *carried) {
    struct round round = {.reached = malloc(carried->count_groups + 1)};
    uint32_t status = round.reached ? CPGRING_OK : CPGRING_MEMORY;
    size_t left = carried->count_members;
    while (status == CPGRING_OK && left > 0) {
        status = ask_round(ring, carried, &round, &left);
        if (status == CPGRING_OK && !settle(ring)) status = ring->gate.fault;
    }
    free(round.reached);
    if (status == CPGRING_OK && !is_kept(ring, carried)) {
        log_line(LOG_ERROR, "ring %u: members do not stand as they stood", ring->number);
        return CPGRING_IMPLAUSIBLE;
    }
    return status;
}

static uint32_t insert_rules(struct ring *ring, const struct carried *carried) {
    struct node *first = &ring->nodes[0];
    for (size_t t = 0; t < carried->count_tables; t++) {
        const struct carried_table *table = &carried->tables[t];
        for (size_t k = 0; k < table->count; k++) {
            uint32_t status = cpgring_insert(&first->ring, first->own, table->name.at, table->name.len, (uint8_t)k, &table->rules[k]);
            if (status != CPGRING_OK) return status;
        }
        if (!settle(ring)) return ring->gate.fault;
    }
    return CPGRING_OK;
}

uint32_t carry_into(struct ring *ring, const struct carried *carried) {
    uint32_t status = CPGRING_OK;
    for (unsigned k = 0; k < ring->count && status == CPGRING_OK; k++) status = connect_clients(&ring->nodes[k]);
    if (status == CPGRING_OK) status = seat_members(ring, carried);
    return status == CPGRING_OK ? insert_rules(ring, carried) : status;
}
