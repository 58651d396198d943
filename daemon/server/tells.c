/* What clients are told: events and answers become frames, in the order in which the node gave them.
 * A short message is copied into the client's buffer, together with what else is told; a long one is lent by the node, and not
 * copied at all.
 * A client with much unread is told nothing more until it reads: its events stay in the node, which keeps them anyway. */
#include "node.h"
#include <corosync/cpg.h>
#include <string.h>

enum { LENT_FROM = 1024 }; /* bytes of a message from which it is lent: a piece more in a write costs more than a shorter copy */
_Static_assert((int)LENT_FROM > (int)CPGRING_SHORT_MESSAGE, "what is lent stays where it is until the ring is closed");

uint8_t *tell(struct client *c, uint16_t kind, uint16_t tag, size_t len) {
    size_t filled = (len + 7) & ~(size_t)7;
    uint8_t *at = out_add(&c->out, sizeof(struct head) + filled);
    if (!at) {
        client_end(c, END_NO_MEMORY);
        return NULL;
    }
    struct head head = {(uint32_t)filled, kind, tag};
    memset(at + filled, 0, 8); /* what fills it up is in the last 8 bytes */
    memcpy(at, &head, sizeof head);
    client_activate(c);
    return at + sizeof head;
}

void answer(struct client *c, uint16_t ask, uint16_t tag, uint32_t status) {
    uint8_t *at = tell(c, ask | ANSWER, tag, sizeof status);
    if (at) memcpy(at, &status, sizeof status);
}

void tell_denied(struct client *c, uint32_t status, uint32_t verdict, uint32_t rule) {
    struct tell_denied told = {status, verdict, rule};
    uint8_t *at = tell(c, TELL_DENIED, 0, sizeof told);
    if (at) memcpy(at, &told, sizeof told);
}

uint32_t status_of_refusal(uint32_t refusal) {
    switch (refusal) {
    case CPGRING_OK: return CS_OK;
    case CPGRING_MEMORY: return CS_ERR_NO_MEMORY;
    case CPGRING_ACCESS:
    case CPGRING_DENIED: return CS_ERR_ACCESS;
    case CPGRING_BAD_NAME:
    case CPGRING_RANGE: return CS_ERR_INVALID_PARAM;
    case CPGRING_TOO_LONG: return CS_ERR_TOO_BIG;
    case CPGRING_CONNECTIONS_FULL: return CS_ERR_TRY_AGAIN;
    default: return CS_ERR_LIBRARY;
    }
}

static uint32_t status_of_verdict(uint32_t verdict) {
    switch (verdict) {
    case CPGRING_ALLOWED: return CS_OK;
    case CPGRING_BY_RULE:
    case CPGRING_BY_DEFAULT: return CS_ERR_ACCESS;
    case CPGRING_NO_GROUP:
    case CPGRING_ABSENT: return CS_ERR_NOT_EXIST;
    case CPGRING_JOINED:
    case CPGRING_TWICE: return CS_ERR_EXIST;
    case CPGRING_FULL:
    case CPGRING_TABLE_FULL: return CS_ERR_NO_SPACE;
    default: return CS_ERR_INVALID_PARAM;
    }
}

static uint32_t reason_of(uint32_t cause) {
    switch (cause) {
    case CPGRING_LEFT: return CPG_REASON_LEAVE;
    case CPGRING_DOWN: return CPG_REASON_PROCDOWN;
    case CPGRING_CAME: return CPG_REASON_JOIN;
    default: return CPG_REASON_UNDEFINED;
    }
}

static void tell_verdict(struct client *c, const cpgring_event *event) {
    uint32_t status = status_of_verdict(event->verdict);
    if (c->owed_sends > 0) {
        c->owed_sends--;
        if (status != CS_OK) tell_denied(c, status, event->verdict, event->rule);
        return;
    }
    uint16_t asked = c->asked;
    c->asked = 0;
    client_activate(c); /* what it asked behind this may be heard now */
    if (status == CS_OK && asked == ASK_JOIN) c->group = c->joining;
    answer(c, asked, c->asked_tag, status);
}

static struct lender *old_lender(struct node *node) { return &node->lenders[1 - node->lending]; }

/* The same frame as tell would make; what a client at its end has of one does not matter. */
static void tell_lent(struct client *c, const struct tell_message *told, const uint8_t *message) {
    struct lender *from = c->old_conn ? old_lender(c->node) : &c->node->lenders[c->node->lending];
    uint32_t filled = fill8(told->message_len) - told->message_len, name_len = fill8(told->name_len);
    struct head head = {(uint32_t)sizeof *told + fill8(told->message_len) + name_len, TELL_MESSAGE, 0};
    uint8_t *front = out_add(&c->out, sizeof head + sizeof *told);
    if (front) {
        memcpy(front, &head, sizeof head);
        memcpy(front + sizeof head, told, sizeof *told);
    }
    uint8_t *behind = front && out_lend(&c->out, from, message, told->message_len) ? out_add(&c->out, filled + name_len) : NULL;
    if (!behind) {
        client_end(c, END_NO_MEMORY);
        return;
    }
    memset(behind, 0, filled + name_len);
    memcpy(behind + filled, c->group.at, told->name_len);
    client_activate(c);
}

static void tell_message(struct client *c, cpgring *ring, const cpgring_event *event) {
    struct tell_message told = {event->node, event->pid, (uint32_t)event->message_len, c->group.len};
    const uint8_t *message;
    size_t len, at_name = sizeof told + fill8(told.message_len);
    c->told_messages++;
    if (cpgring_audit_lent(ring, event->place, &message, &len) != CPGRING_OK || len != told.message_len) return;
    if (len >= LENT_FROM) {
        tell_lent(c, &told, message);
        return;
    }
    uint8_t *out = tell(c, TELL_MESSAGE, 0, at_name + told.name_len);
    if (!out) return;
    memset(out + at_name - 8, 0, 8);
    memcpy(out, &told, sizeof told);
    if (len) memcpy(out + sizeof told, message, len);
    memcpy(out + at_name, c->group.at, told.name_len);
}

static uint8_t *put_process(uint8_t *at, const cpgring_process *p) {
    struct told_process told = {p->node, p->pid, reason_of(p->cause)};
    memcpy(at, &told, sizeof told);
    return at + sizeof told;
}

static void tell_change(struct client *c, cpgring *ring, const cpgring_event *event) {
    struct tell_change told = {c->group.len, (uint32_t)event->members, (uint32_t)event->left, (uint32_t)event->joined};
    size_t processes = event->members + event->left + event->joined;
    uint8_t *out = tell(c, TELL_CHANGE, 0, sizeof told + processes * sizeof(struct told_process) + told.name_len);
    cpgring_process p;
    if (!out) return;
    memcpy(out, &told, sizeof told);
    out += sizeof told;
    for (size_t k = 0; k < event->members && cpgring_member(ring, k, &p) == CPGRING_OK; k++) out = put_process(out, &p);
    for (size_t k = 0; k < event->left && cpgring_left(ring, k, &p) == CPGRING_OK; k++) out = put_process(out, &p);
    for (size_t k = 0; k < event->joined && cpgring_joined(ring, k, &p) == CPGRING_OK; k++) out = put_process(out, &p);
    memcpy(out, c->group.at, told.name_len);
}

/* Takes the next event of that connection of that ring. A status of cpgring.h. */
static uint32_t take_one(struct client *c, cpgring *ring, uint16_t conn) {
    cpgring_event event;
    size_t before = out_held(&c->out);
    uint32_t status = cpgring_take(ring, conn, &event);
    if (status != CPGRING_OK) return status;
    if (event.kind == CPGRING_VERDICT) tell_verdict(c, &event);
    else if (event.kind == CPGRING_MESSAGE) tell_message(c, ring, &event);
    else if (event.kind == CPGRING_CHANGE) tell_change(c, ring, &event);
    size_t taken = out_held(&c->out) - before;
    c->untaken -= taken < c->untaken ? taken : c->untaken;
    return CPGRING_OK;
}

/* Takes events, of the ring before first. false: there may be more, for which there is no room now. */
static bool take_events(struct client *c) {
    struct node *node = c->node;
    while (c->end == END_NOT) {
        if (out_held(&c->out) > limits.room) return false;
        uint32_t status = c->old_conn ? take_one(c, &node->old, c->old_conn) : take_one(c, &node->ring, c->conn);
        if (status == CPGRING_OK) continue;
        if (status != CPGRING_NONE) client_end(c, END_NO_MEMORY);
        if (status != CPGRING_NONE || !c->old_conn) {
            c->untaken = 0;
            return true;
        }
        c->old_conn = 0;
        node->lagging--;
    }
    return true;
}

void node_tell_later(struct node *node) { node->lending = 1 - node->lending; }

void node_tell(struct node *node) {
    unsigned kept = 0;
    for (unsigned k = 0; k < node->count_told; k++) {
        struct client *c = node->told[k];
        if (take_events(c)) c->told = false;
        else node->told[kept++] = c;
        client_account(c);
    }
    node->count_told = kept;
}

bool node_told_old(const struct node *node) { return node->lagging == 0 && node->lenders[1 - node->lending].parts == 0; }

void node_tell_old(struct node *node) {
    for (struct client *c = node->clients; c && node->lagging > 0; c = c->next) {
        if (!c->old_conn) continue;
        while (c->end == END_NOT && take_one(c, &node->old, c->old_conn) == CPGRING_OK) {}
        c->old_conn = 0;
        node->lagging--;
        client_account(c);
    }
    for (struct client *c = node->clients; c && old_lender(node)->parts > 0; c = c->next)
        if (!out_keep(&c->out, old_lender(node))) client_end(c, END_NO_MEMORY);
}

void node_tell_nothing(struct node *node) {
    cpgring_event event;
    for (struct client *c = node->clients; c; c = c->next) {
        while (c->conn && cpgring_take(&node->ring, c->conn, &event) == CPGRING_OK) {}
        c->told = false;
    }
    node->count_told = 0;
    for (struct client *c = node->clients; c; c = c->next)
        if (c->old_conn) note_told(node, c, 0);
        else c->untaken = 0;
}
