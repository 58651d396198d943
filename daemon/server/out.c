/* What a client is told; see out.h.
 * A part's place is counted in own bytes from the stream's beginning, so that nothing moves when the front is dropped.
 * Parts stand in an array that is used from its front again once they are gone. */
#include "out.h"
#include <stdlib.h>
#include <string.h>

uint8_t *out_add(struct out *o, size_t count) {
    uint8_t *at = bytes_room(&o->own, count);
    if (at) o->own.end += count;
    return at;
}

/* Room for one part more. */
static bool room_for_part(struct out *o) {
    if (o->last < o->room) return true;
    if (o->first > 0 && o->first >= o->room / 2) {
        memmove(o->parts, o->parts + o->first, (o->last - o->first) * sizeof *o->parts);
        o->last -= o->first;
        o->first = 0;
        return true;
    }
    unsigned room = o->room ? 2 * o->room : 16;
    struct part *parts = realloc(o->parts, room * sizeof *parts);
    if (!parts) return false;
    o->parts = parts;
    o->room = room;
    return true;
}

bool out_lend(struct out *o, struct lender *from, const uint8_t *bytes, uint32_t len) {
    if (!room_for_part(o)) return false;
    o->parts[o->last++] = (struct part){o->dropped + bytes_held(&o->own), bytes, len, from};
    o->lent += len;
    from->parts++;
    return true;
}

static void part_free(struct part *part) {
    if (part->from) part->from->parts--;
    else free((void *)(uintptr_t)part->bytes);
}

bool out_keep(struct out *o, const struct lender *from) {
    for (unsigned k = o->first; k < o->last; k++) {
        struct part *part = &o->parts[k];
        if (part->from != from) continue;
        uint8_t *copy = malloc(part->len);
        if (!copy) {
            out_drop(o, out_held(o));
            return false;
        }
        memcpy(copy, part->bytes, part->len);
        part_free(part);
        part->bytes = copy;
        part->from = NULL;
    }
    return true;
}

unsigned out_front(const struct out *o, struct iovec *pieces, unsigned most) {
    unsigned count = 0;
    size_t own = 0, held = bytes_held(&o->own); /* own bytes that stand before what comes next */
    for (unsigned k = o->first; count < most; k++) {
        size_t next = k < o->last ? (size_t)(o->parts[k].at - o->dropped) : held;
        if (next > own) pieces[count++] = (struct iovec){o->own.at + o->own.begin + own, next - own};
        own = next;
        if (k == o->last) break;
        uint32_t gone = k == o->first ? o->begun : 0;
        if (count < most && o->parts[k].len > gone) /* iovec has no word for bytes that are read alone */
            pieces[count++] = (struct iovec){(void *)(uintptr_t)(o->parts[k].bytes + gone), o->parts[k].len - gone};
    }
    return count;
}

static void drop_own(struct out *o, size_t count) {
    bytes_drop(&o->own, count);
    o->dropped += count;
}

void out_drop(struct out *o, size_t count) {
    while (o->first < o->last) {
        struct part *part = &o->parts[o->first];
        size_t before = (size_t)(part->at - o->dropped), own = count < before ? count : before;
        drop_own(o, own);
        count -= own;
        if (own < before) return;
        size_t left = part->len - o->begun, step = count < left ? count : left;
        o->begun += (uint32_t)step;
        o->lent -= step;
        count -= step;
        if (step < left) return;
        part_free(part);
        o->begun = 0;
        if (++o->first == o->last) o->first = o->last = 0;
    }
    drop_own(o, count);
}

void out_shrink(struct out *o, size_t most) {
    bytes_shrink(&o->own, most);
    if (o->first == o->last && o->room * sizeof *o->parts > most) {
        free(o->parts);
        o->parts = NULL;
        o->room = 0;
    }
}

void out_free(struct out *o) {
    out_drop(o, out_held(o));
    bytes_free(&o->own);
    free(o->parts);
    *o = (struct out){0};
}
