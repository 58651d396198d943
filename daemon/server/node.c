/* One node with its clients: opening, and clients that come and go; see node.h.
 * Every client belongs to a user, whose connections and unread bytes are counted together.
 * A client that is to go is only marked here; the loop frees it, so that no list changes under who walks it. */
#include "node.h"
#include "lanes.h"
#include "log.h"
#include "users.h"
#include <stdlib.h>

struct limits limits;

uint32_t node_open(struct node *node, const cpgring_setup *setup, const char *conf, size_t conf_len, const char *names,
                   size_t names_len, cpgring_fault *fault) {
    node->setup = *setup;
    if (!node->by_conn && !(node->by_conn = calloc(MOST_CONNECTIONS, sizeof *node->by_conn))) return CPGRING_MEMORY;
    uint32_t status = cpgring_open_conf(&node->ring, setup, (const uint8_t *)names, names_len, (const uint8_t *)conf, conf_len, fault);
    if (status != CPGRING_OK) return status;
    return cpgring_connect(&node->ring, 0, 0, 0, &node->own);
}

void node_close(struct node *node) {
    while (node->clients) client_free(node->clients);
    node_forget(node);
    cpgring_close(&node->ring);
    cpgring_close(&node->old);
    free(node->by_conn);
    free(node->told);
    *node = (struct node){.ring = CPGRING_INIT, .old = CPGRING_INIT};
}

struct client *client_new(struct node *node, uint32_t pid, uint32_t uid, uint32_t gid) {
    struct client *c = calloc(1, sizeof *c);
    struct user *user = c ? user_get(uid) : NULL;
    if (!user) {
        free(c);
        return NULL;
    }
    c->node = node;
    c->user = user;
    c->pid = pid;
    c->uid = uid;
    c->gid = gid;
    c->fd = -1;
    c->next = node->clients;
    if (c->next) c->next->previous = c;
    node->clients = c;
    node->count++;
    user_ungreeted_add(c);
    user->connections++;
    return c;
}

static void leave_told(struct client *c) {
    struct node *node = c->node;
    for (unsigned k = 0; c->told && k < node->count_told; k++)
        if (node->told[k] == c) {
            node->told[k] = node->told[--node->count_told];
            c->told = false;
        }
}

void client_free(struct client *c) {
    struct node *node = c->node;
    if (c->conn) {
        if (cpgring_disconnect(&node->ring, c->conn) == CPGRING_MEMORY)
            log_line(LOG_ERROR, "node %u: no memory for the end of process %u", node->setup.node, c->pid);
        node->by_conn[c->conn] = NULL;
    }
    if (c->old_conn) node->lagging--;
    if (c->hung) node->hung--;
    client_rest(c);
    leave_told(c);
    if (!c->greeted) user_ungreeted_drop(c);
    lanes_free(c);
    c->user->unread -= c->counted;
    c->user->connections--;
    user_put(c->user);
    *(c->previous ? &c->previous->next : &node->clients) = c->next;
    if (c->next) c->next->previous = c->previous;
    node->count--;
    bytes_free(&c->in);
    out_free(&c->out);
    free(c);
}

const char *end_text(enum end end) {
    switch (end) {
    case END_NOT: return "is there";
    case END_CLOSED: return "closed its socket";
    case END_BROKEN: return "sent bytes that are no ask";
    case END_BEHIND: return "is too far behind with reading";
    case END_NO_MEMORY: return "found no memory";
    case END_REFUSED: return "was not let in";
    case END_SILENT: return "did not greet in time";
    case END_PUSHED: return "was the oldest of too many that did not greet";
    }
    return "?";
}

void client_end(struct client *c, enum end end) {
    if (c->end != END_NOT) return;
    c->end = end;
    c->user->unread -= c->counted; /* what it did not read goes with it, and is nobody's fault from here on */
    c->counted = 0;
    client_activate(c);
    enum level level = end == END_CLOSED ? LOG_DEBUG : end == END_BEHIND || end == END_NO_MEMORY ? LOG_NOTICE : LOG_INFO;
    log_line(level, "node %u: process %u of user %u %s: its connection ends", c->node->setup.node, c->pid, c->uid, end_text(end));
}

void client_hang(struct client *c) {
    if (!c->hung) c->node->hung++;
    c->hung = true;
}

void client_activate(struct client *c) {
    struct node *node = c->node;
    if (c->active) return;
    c->active = true;
    c->next_active = NULL;
    c->previous_active = node->last_active;
    *(node->last_active ? &node->last_active->next_active : &node->first_active) = c;
    node->last_active = c;
}

void client_rest(struct client *c) {
    struct node *node = c->node;
    if (!c->active) return;
    c->active = false;
    *(c->previous_active ? &c->previous_active->next_active : &node->first_active) = c->next_active;
    *(c->next_active ? &c->next_active->previous_active : &node->last_active) = c->previous_active;
}

void client_account(struct client *c) {
    if (c->end != END_NOT) return;
    uint64_t unread = c->untaken + out_held(&c->out);
    c->user->unread = c->user->unread - c->counted + unread;
    c->counted = unread;
    if (unread > limits.unread) client_end(c, END_BEHIND);
    else if (c->user->unread > limits.user_unread) user_end_worst(c->user, c);
}

size_t client_kept(const struct client *c) {
    enum { OF_A_USER = 64 << 20, LEAST = 16 << 10, MOST = 4 << 20 };
    size_t share = OF_A_USER / (c->user->connections + 1);
    return share < LEAST ? LEAST : share < MOST ? share : MOST;
}
