/* Bytes on their way; see bytes.h.
 * Room doubles, so that filling a buffer takes time in proportion to what is put into it.
 * What was emptied at the front is used again before more memory is asked for. */
#include "bytes.h"
#include <stdlib.h>
#include <string.h>

enum { LEAST_ROOM = 4096 };

static void move_to_front(struct bytes *b) {
    if (b->begin == 0) return;
    memmove(b->at, b->at + b->begin, bytes_held(b));
    b->end -= b->begin;
    b->begin = 0;
}

uint8_t *bytes_room(struct bytes *b, size_t more) {
    if (b->begin == b->end) b->begin = b->end = 0;
    if (b->at && b->room - b->end >= more) return b->at + b->end;
    size_t room = b->room ? b->room : LEAST_ROOM;
    while (room - bytes_held(b) < more) {
        if (room > SIZE_MAX / 2) return NULL;
        room *= 2;
    }
    if (room == b->room) {
        /* half empty at the front at least, so that moving is paid for by what was emptied */
        if (b->begin >= b->room / 2 || bytes_held(b) < LEAST_ROOM) {
            move_to_front(b);
            return b->at + b->end;
        }
        room *= 2;
    }
    uint8_t *at = realloc(b->at, room);
    if (!at) return NULL;
    b->at = at;
    b->room = room;
    move_to_front(b);
    return b->at + b->end;
}

void bytes_drop(struct bytes *b, size_t count) {
    b->begin += count;
    if (b->begin == b->end) b->begin = b->end = 0;
}

void bytes_shrink(struct bytes *b, size_t most) {
    if (bytes_held(b) == 0 && b->room > most) bytes_free(b);
}

void bytes_free(struct bytes *b) {
    free(b->at);
    *b = (struct bytes){0};
}
