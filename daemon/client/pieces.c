/* Messages of more than 8,192 bytes go in pieces, each a message of its own that begins with MAGIC.
 * A message that begins so by itself goes as one piece. The whole is delivered where its last piece stands in the order.
 * Pieces of several messages of one handle never mix, since they are sent under one lock. */
#include "instance.h"
#include <stdlib.h>
#include <string.h>

static const uint8_t MAGIC[8] = {0xC9, 'c', 'p', 'g', 0x91, 'p', 'c', 0x0A};

struct piece {
    uint8_t magic[8];
    uint32_t whole, at;
};

enum { MOST_PIECE = MOST_PAYLOAD - (int)sizeof(struct piece), AT_ONCE = 32 /* pieces in one write */ };

/* ---- joining ---- */

/* Memory for the whole: of a spare one that is not much larger, or fresh. */
static bool partial_room(struct instance *i, struct partial *p) {
    for (unsigned k = 0; k < SPARES; k++) {
        struct spare *spare = &i->spares[k];
        if (spare->room < p->whole || spare->room / 4 > p->whole) continue;
        p->data = spare->data;
        p->room = spare->room;
        *spare = (struct spare){0};
        return true;
    }
    p->room = p->whole;
    p->data = malloc(p->whole);
    return p->data != NULL;
}

static void partial_free(struct instance *i, struct partial *p) {
    unsigned k = 0;
    while (k < SPARES && i->spares[k].data) k++;
    if (k < SPARES && p->data && p->room <= MOST_SPARE) i->spares[k] = (struct spare){p->data, p->room};
    else free(p->data);
    free(p);
}

static struct partial **find(struct instance *i, uint32_t node, uint32_t pid) {
    struct partial **at = &i->partials;
    while (*at && ((*at)->node != node || (*at)->pid != pid)) at = &(*at)->next;
    return at;
}

void pieces_drop(struct instance *i, uint32_t node, uint32_t pid) {
    struct partial **at = find(i, node, pid), *p = *at;
    if (!p) return;
    *at = p->next;
    partial_free(i, p);
}

void pieces_free(struct instance *i) {
    while (i->partials) pieces_drop(i, i->partials->node, i->partials->pid);
    for (unsigned k = 0; k < SPARES; k++) {
        free(i->spares[k].data);
        i->spares[k] = (struct spare){0};
    }
}

static struct partial *begin(struct instance *i, const struct tell_message *told, uint32_t whole) {
    pieces_drop(i, told->node, told->pid);
    struct partial *p = calloc(1, sizeof *p);
    if (!p) return NULL;
    *p = (struct partial){.next = i->partials, .node = told->node, .pid = told->pid, .whole = whole};
    i->partials = p;
    return p;
}

/* Of memory for the whole only what pieces came for is touched, whatever the first one promises. */
static bool append(struct instance *i, struct partial *p, const uint8_t *data, uint32_t len) {
    if (!p->data && !partial_room(i, p)) return false;
    memcpy(p->data + p->have, data, len);
    p->have += len;
    return true;
}

static bool call_deliver(struct instance *i, const struct cpg_name *name, const struct tell_message *told, uint8_t *data, size_t len) {
    if (!i->model.cpg_deliver_fn) return false;
    i->model.cpg_deliver_fn(i->handle, name, told->node, told->pid, data, len);
    return true;
}

static bool deliver_piece(struct instance *i, const struct cpg_name *name, const struct tell_message *told, uint8_t *data) {
    struct piece piece;
    uint32_t len = told->message_len - (uint32_t)sizeof piece;
    memcpy(&piece, data, sizeof piece);
    data += sizeof piece;
    if (piece.whole > MOST_MESSAGE || piece.at > piece.whole || len > piece.whole - piece.at) return false;
    if (name->length != i->partials_of.length || memcmp(name->value, i->partials_of.value, name->length)) {
        pieces_free(i); /* of a group that this process has left */
        i->partials_of = *name;
    }
    if (piece.at == 0 && len == piece.whole) {
        pieces_drop(i, told->node, told->pid);
        return call_deliver(i, name, told, data, len);
    }
    struct partial *p = piece.at == 0 ? begin(i, told, piece.whole) : *find(i, told->node, told->pid);
    if (!p) return false; /* begun before this process came */
    if (p->whole != piece.whole || p->have != piece.at || !append(i, p, data, len)) {
        pieces_drop(i, told->node, told->pid);
        return false;
    }
    if (p->have < p->whole) return false;
    *find(i, told->node, told->pid) = p->next;
    bool called = call_deliver(i, name, told, p->data, p->whole);
    partial_free(i, p);
    return called;
}

bool pieces_deliver(struct instance *i, const struct cpg_name *name, const struct tell_message *told, uint8_t *data) {
    if (told->message_len >= sizeof(struct piece) && !memcmp(data, MAGIC, sizeof MAGIC)) return deliver_piece(i, name, told, data);
    return call_deliver(i, name, told, data, told->message_len);
}

/* ---- sending ---- */

struct source { /* where in the program's parts the next byte is */
    const struct iovec *part;
    size_t at;
};

/* Points to the next bytes of the message, as many parts as they are in. */
static unsigned point(struct source *from, size_t len, struct iovec *to, unsigned room) {
    unsigned used = 0;
    while (len > 0 && used < room) {
        size_t left = from->part->iov_len - from->at, step = left < len ? left : len;
        if (step > 0) to[used++] = (struct iovec){(uint8_t *)from->part->iov_base + from->at, step};
        from->at += step;
        len -= step;
        if (from->at == from->part->iov_len && len > 0) {
            from->part++;
            from->at = 0;
        }
    }
    return len > 0 ? 0 : used;
}

struct front { /* what stands before a piece's bytes on the wire */
    struct head head;
    struct piece piece;
};

/* Sends up to AT_ONCE pieces from `at` in one write. */
static cs_error_t send_some(struct instance *i, struct source *from, size_t *at, size_t len) {
    struct front fronts[AT_ONCE];
    enum { PARTS = 1000 };
    struct iovec parts[PARTS];
    unsigned used = 0, pieces = 0;
    size_t next = *at;
    struct source source = *from;
    do {
        size_t step = len - next < MOST_PIECE ? len - next : MOST_PIECE;
        struct front *front = &fronts[pieces];
        struct source before = source;
        unsigned more = point(&source, step, parts + used + 1, PARTS - used - 1);
        if (more == 0 && step > 0) { /* too many parts for one write */
            source = before;
            break;
        }
        *front = (struct front){{(uint32_t)(sizeof front->piece + step), ASK_SEND, 0}, {{0}, (uint32_t)len, (uint32_t)next}};
        memcpy(front->piece.magic, MAGIC, sizeof MAGIC);
        parts[used] = (struct iovec){front, sizeof *front};
        used += 1 + more;
        pieces++;
        next += step;
    } while (next < len && pieces < AT_ONCE && used + 2 < PARTS);
    if (pieces == 0) return CS_ERR_INVALID_PARAM;
    cs_error_t result = stream_send(i, parts, used, *at > 0 ? SEND_SURELY : next < len ? SEND_BEGUN : SEND_NOW);
    if (result != CS_OK) return result;
    *from = source;
    *at = next;
    return CS_OK;
}

/* The lock `out` is held. */
static cs_error_t send_pieces(struct instance *i, const struct iovec *parts, size_t len) {
    struct source from = {parts, 0};
    size_t at = 0;
    cs_error_t result;
    do result = send_some(i, &from, &at, len);
    while (result == CS_OK && at < len);
    if (at > 0 && result != CS_OK) i->broken = true; /* half a message was sent: the handle is of no more use */
    return at > 0 && result != CS_OK ? CS_ERR_LIBRARY : result;
}

static bool begins_with_magic(const struct iovec *parts, unsigned count) {
    size_t have = 0;
    for (unsigned k = 0; k < count; k++)
        for (size_t at = 0; at < parts[k].iov_len; at++) {
            if (((const uint8_t *)parts[k].iov_base)[at] != MAGIC[have]) return false;
            if (++have == sizeof MAGIC) return true;
        }
    return false;
}

cs_error_t pieces_send(struct instance *i, const struct iovec *parts, unsigned count, size_t len) {
    struct head head = {(uint32_t)len, ASK_SEND, 0};
    struct iovec all[1 + MOST_PARTS];
    cs_error_t result;
    bool whole = len <= MOST_PAYLOAD && !begins_with_magic(parts, count);
    all[0] = (struct iovec){&head, sizeof head};
    if (whole && count > 0) memcpy(all + 1, parts, count * sizeof *parts);
    pthread_mutex_lock(&i->out);
    result = whole ? stream_send(i, all, 1 + count, SEND_NOW) : send_pieces(i, parts, len);
    if (result == CS_OK) lanes_linger(i);
    pthread_mutex_unlock(&i->out);
    return result;
}
