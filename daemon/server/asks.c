/* What clients ask: the frames at the front of what came in become calls of the node, in their order.
 * A call other than a send stops its client's asks until its verdict is told, so at most one such is owed.
 * Statuses are those of the interface, corosync/cpg.h. */
#include "control.h"
#include "node.h"
#include "users.h"
#include <corosync/corotypes.h>
#include <string.h>

size_t ask_at(const struct client *c, struct head *head) {
    size_t held = bytes_held(&c->in);
    if (held < sizeof *head) return 0;
    memcpy(head, c->in.at + c->in.begin, sizeof *head);
    if (head->len > MOST_ASK) return SIZE_MAX;
    return held < sizeof *head + head->len ? 0 : sizeof *head + head->len;
}

/* Whether an earlier connection of the process is about to end: that comes before its next join. */
static bool is_ending(const struct client *c) {
    const struct client *it = c->node->hung > 0 ? c->next : NULL; /* the later ones stand first */
    while (it && !(it->hung && it->pid == c->pid)) it = it->next;
    return it != NULL;
}

bool client_hearable(const struct client *c) {
    struct head head;
    return c->end == END_NOT && c->asked == 0 && !c->auditing && !c->blocked &&
           (c->hung || out_held(&c->out) <= limits.room) && ask_at(c, &head) != 0 &&
           (head.kind != ASK_JOIN || !is_ending(c));
}

/* ---- asks that are answered at once ---- */

static void hear_hello(struct client *c, const struct head *head, const uint8_t *body) {
    struct node *node = c->node;
    struct hello hello = {CS_OK, node->setup.node, node->setup.nodes, MOST_PAYLOAD, node->setup.ring};
    uint32_t version = 0, wants = 0;
    if (head->len >= sizeof version) memcpy(&version, body, sizeof version);
    if (head->len >= sizeof version + sizeof wants) memcpy(&wants, body + sizeof version, sizeof wants);
    if (version != PROTOCOL_VERSION) hello.status = CS_ERR_VERSION;
    else hello.status = status_of_refusal(cpgring_connect(&node->ring, c->pid, c->uid, c->gid, &c->conn));
    uint8_t *out = tell(c, ASK_HELLO | ANSWER, head->tag, sizeof hello);
    if (out) memcpy(out, &hello, sizeof hello);
    if (hello.status != CS_OK) {
        c->conn = 0;
        client_end(c, END_REFUSED);
        return;
    }
    node->by_conn[c->conn] = c;
    node->connected++;
    c->greeted = true;
    c->wants_lanes = wants & HELLO_LANES;
    user_ungreeted_drop(c);
}

static uint8_t *put_listed(struct node *node, uint8_t *out, size_t count) {
    for (size_t k = 0; k < count; k++, out += sizeof(struct listed)) {
        cpgring_process p = {0};
        cpgring_listed(&node->ring, k, &p);
        memcpy(out, &(struct listed){p.node, p.pid}, sizeof(struct listed));
    }
    return out;
}

static void hear_members(struct client *c, const struct head *head, const uint8_t *body) {
    struct name code;
    size_t count = 0;
    uint32_t words[2] = {CS_OK, 0};
    if (head->len > MOST_NAME) words[0] = CS_ERR_NAME_TOO_LONG;
    else if (name_code(body, head->len, NAME_LOOK, &code))
        words[0] = status_of_refusal(cpgring_list(&c->node->ring, c->conn, code.at, code.len, &count));
    words[1] = words[0] == CS_OK ? (uint32_t)count : 0;
    uint8_t *out = tell(c, ASK_MEMBERS | ANSWER, head->tag, sizeof words + words[1] * sizeof(struct listed));
    if (!out) return;
    memcpy(out, words, sizeof words);
    put_listed(c->node, out + sizeof words, words[1]);
}

/* Tells one group of the last listing of groups, with its members where they are wanted: a frame's part. */
static bool put_group(struct client *c, size_t index, bool members, struct bytes *to) {
    struct name code = {0}, plain = {0};
    struct listed_group told = {0};
    size_t len = 0, count = 0;
    if (cpgring_named(&c->node->ring, index, code.at, sizeof code.at, &len) != CPGRING_OK) return true;
    code.len = (uint32_t)len;
    if (members && cpgring_list(&c->node->ring, c->conn, code.at, code.len, &count) != CPGRING_OK) count = 0;
    name_plain(&code, &plain);
    told.members = (uint32_t)count;
    told.name_len = plain.len;
    memcpy(told.name, plain.at, plain.len);
    size_t whole = sizeof told + count * sizeof(struct listed);
    uint8_t *out = bytes_room(to, whole);
    if (!out) return false;
    memcpy(out, &told, sizeof told);
    put_listed(c->node, out + sizeof told, count);
    to->end += whole;
    return true;
}

static void hear_groups(struct client *c, const struct head *head, const uint8_t *body) {
    struct bytes all = {0};
    size_t count = 0;
    uint32_t members = 0, words[2] = {CS_OK, 0};
    if (head->len >= sizeof members) memcpy(&members, body, sizeof members);
    words[0] = status_of_refusal(cpgring_groups(&c->node->ring, c->conn, &count));
    if (words[0] != CS_OK) count = 0;
    for (size_t k = 0; k < count; k++)
        if (!put_group(c, k, members != 0, &all)) {
            words[0] = CS_ERR_NO_MEMORY;
            count = 0;
        }
    words[1] = (uint32_t)count;
    size_t held = count ? bytes_held(&all) : 0;
    uint8_t *out = tell(c, ASK_GROUPS | ANSWER, head->tag, sizeof words + held);
    if (out) {
        memcpy(out, words, sizeof words);
        if (held) memcpy(out + sizeof words, all.at + all.begin, held);
    }
    bytes_free(&all);
}

/* ---- calls, which the node answers at their place ---- */

static uint32_t call_join(struct client *c, const uint8_t *body, uint32_t len) {
    if (!name_code(body, len, NAME_KEEP, &c->joining_code)) return len > MOST_NAME ? CPGRING_TOO_LONG : CPGRING_MEMORY;
    uint32_t status = cpgring_join(&c->node->ring, c->conn, c->joining_code.at, c->joining_code.len);
    if (status == CPGRING_OK) {
        c->joining.len = len;
        memcpy(c->joining.at, body, len);
    }
    return status;
}

static uint32_t call_insert(struct client *c, const uint8_t *body, uint32_t len) {
    struct ask_rule ask;
    struct name code;
    if (len < sizeof ask) return CPGRING_RANGE;
    memcpy(&ask, body, sizeof ask);
    if (len - sizeof ask > MOST_NAME) return CPGRING_TOO_LONG;
    if (ask.index > UINT8_MAX || ask.node > UINT8_MAX) return CPGRING_RANGE;
    if (!name_code(body + sizeof ask, len - sizeof ask, NAME_KEEP, &code)) return CPGRING_MEMORY;
    cpgring_rule rule = {.effect = ask.effect, .right = ask.right, .has_uid = ask.has & HAS_UID, .has_gid = ask.has & HAS_GID,
                         .has_node = ask.has & HAS_NODE, .uid = ask.uid, .gid = ask.gid, .node = (uint8_t)ask.node};
    return cpgring_insert(&c->node->ring, c->conn, code.at, code.len, (uint8_t)ask.index, &rule);
}

static uint32_t call_remove(struct client *c, const uint8_t *body, uint32_t len) {
    struct name code;
    uint32_t id;
    if (len < sizeof id) return CPGRING_RANGE;
    memcpy(&id, body, sizeof id);
    if (len - sizeof id > MOST_NAME) return CPGRING_TOO_LONG;
    if (!name_code(body + sizeof id, len - sizeof id, NAME_KEEP, &code)) return CPGRING_MEMORY;
    return cpgring_remove(&c->node->ring, c->conn, code.at, code.len, id);
}

/* false: the node's queue is full, and the ask stays. */
static bool hear_call(struct client *c, const struct head *head, const uint8_t *body) {
    uint32_t status;
    unsigned *waiting = &c->user->waiting[c->node->setup.node - 1];
    if (c->node->closed_for_calls || *waiting >= limits.user_calls) {
        c->blocked = true;
        return false;
    }
    switch (head->kind) {
    case ASK_SEND: status = cpgring_send(&c->node->ring, c->conn, body, head->len); break;
    case ASK_JOIN: status = call_join(c, body, head->len); break;
    case ASK_LEAVE: status = cpgring_leave(&c->node->ring, c->conn); break;
    case ASK_INSERT: status = call_insert(c, body, head->len); break;
    default: status = call_remove(c, body, head->len); break;
    }
    if (status == CPGRING_QUEUE_FULL) {
        c->blocked = true;
        return false;
    }
    if (status == CPGRING_OK) ++*waiting;
    if (status != CPGRING_OK) {
        uint32_t told = status == CPGRING_TOO_LONG && head->kind != ASK_SEND ? CS_ERR_NAME_TOO_LONG : status_of_refusal(status);
        if (head->kind == ASK_SEND) tell_denied(c, told, 0, 0);
        else answer(c, head->kind, head->tag, told);
    } else if (head->kind == ASK_SEND) {
        c->owed_sends++;
    } else {
        c->asked = head->kind;
        c->asked_tag = head->tag;
    }
    return true;
}

/* false: the ask stays, since the node's queue is full, or others are to be heard before so long a listing. */
static bool hear_one(struct client *c, const struct head *head, const uint8_t *body) {
    if (!c->greeted) {
        if (head->kind == ASK_HELLO) hear_hello(c, head, body);
        else client_end(c, END_BROKEN);
        return true;
    }
    switch (head->kind) {
    case ASK_JOIN:
    case ASK_LEAVE:
    case ASK_SEND:
    case ASK_INSERT:
    case ASK_REMOVE: return hear_call(c, head, body);
    case ASK_MEMBERS: hear_members(c, head, body); return true;
    case ASK_GROUPS:
        if (c->node->listings == 0) return false;
        c->node->listings--;
        hear_groups(c, head, body);
        return true;
    case ASK_CONTROL: control_hear(c, head, body); return true;
    default: client_end(c, END_BROKEN); return true;
    }
}

unsigned client_hear(struct client *c, unsigned most) {
    unsigned heard = 0;
    while (heard < most && client_hearable(c)) {
        struct head head;
        size_t whole = ask_at(c, &head);
        if (whole == SIZE_MAX) {
            client_end(c, END_BROKEN);
            break;
        }
        if (!hear_one(c, &head, c->in.at + c->in.begin + sizeof head)) break;
        bytes_drop(&c->in, whole);
        c->heard_asks++;
        heard++;
    }
    return heard;
}
