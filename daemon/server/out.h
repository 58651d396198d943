/* What a client is told and did not take yet: bytes of its own, and messages that a ring's node lends.
 * A long message is not copied on its way from the node to the socket, whomever it is told; where it stands in a client's
 * stream is a part of that stream. The stream is told as pieces of memory, in order, for one write. */
#ifndef CPGRINGD_OUT_H
#define CPGRINGD_OUT_H
#include "bytes.h"
#include <stdbool.h>
#include <sys/uio.h>

/* Who lends bytes: a ring's node, which has to stay as long as streams have some of them. */
struct lender {
    size_t parts; /* of all streams */
};

struct part {
    uint64_t at; /* it stands behind so many of the stream's own bytes, as counted from the beginning */
    const uint8_t *bytes;
    uint32_t len;
    struct lender *from; /* NULL: the bytes are the part's own */
};

struct out {
    struct bytes own;
    uint64_t dropped;                         /* own bytes that are gone */
    struct part *parts;                       /* those from `first` to `last` */
    unsigned first, last, room;
    uint32_t begun; /* bytes of the first part that are gone */
    size_t lent;    /* bytes of parts that are left */
};

static inline size_t out_held(const struct out *o) { return bytes_held(&o->own) + o->lent; }

/* So many own bytes more, to be filled before the next call. NULL: no memory, and nothing has changed. */
uint8_t *out_add(struct out *o, size_t count);
/* Puts bytes that are lent behind what is there. false: no memory, and nothing has changed. */
bool out_lend(struct out *o, struct lender *from, const uint8_t *bytes, uint32_t len);
/* Copies what is left of the bytes of that lender, which is to go. false: no memory; nothing is left then of any of them. */
bool out_keep(struct out *o, const struct lender *from);

/* The front of the stream as up to `most` pieces of memory. How many they are. */
unsigned out_front(const struct out *o, struct iovec *pieces, unsigned most);
/* Drops so many bytes from the front. */
void out_drop(struct out *o, size_t count);
/* Gives memory back where nothing is held and more than `most` bytes of room are kept. */
void out_shrink(struct out *o, size_t most);
void out_free(struct out *o);
#endif
