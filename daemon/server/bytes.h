/* Bytes on their way: a buffer that is filled at its end and emptied at its front.
 * What is held stands from `begin` to `end`; the room behind `end` is made on demand. */
#ifndef CPGRINGD_BYTES_H
#define CPGRINGD_BYTES_H
#include <stddef.h>
#include <stdint.h>

struct bytes {
    uint8_t *at;
    size_t begin, end, room;
};

static inline size_t bytes_held(const struct bytes *b) { return b->end - b->begin; }

/* Room for so many bytes behind the end. NULL: no memory, and nothing has changed. */
uint8_t *bytes_room(struct bytes *b, size_t more);

/* Drops so many bytes from the front. */
void bytes_drop(struct bytes *b, size_t count);

/* Gives the memory back where nothing is held and more than `most` bytes of room are kept. */
void bytes_shrink(struct bytes *b, size_t most);

void bytes_free(struct bytes *b);
#endif
