/* Lanes: bytes from one process to another through memory that both have; a pair of them stands in for a connection's socket.
 * A lane has one writer and one reader. Each keeps its own place in it and only reads the other's, as a value to be doubted:
 * whatever the other writes there, no byte beyond the lane is touched. Bytes are copied out before they are looked at.
 *
 * Who is about to sleep says so in the lane, looks once more, and is then rung by the other: a client by a byte in the pipe
 * whose reading end it was given, the daemon by a byte in the socket. Who is awake is not rung.
 *
 * The memory: struct lanes_memory, then the bytes of the lane to the daemon, then those of the lane to the client. Its sizes
 * belong to the protocol's version. */
#ifndef CPGRINGD_LANE_H
#define CPGRINGD_LANE_H
#include <stdatomic.h>
#include <stdbool.h>
#include <stddef.h>
#include <stdint.h>
#include <string.h>
#include <sys/types.h>

enum { LANE_UP = 128 << 10, LANE_DOWN = 256 << 10, LANES_FRONT = 4096, LANES_MEMORY = LANES_FRONT + LANE_UP + LANE_DOWN };

/* Each word is written by one of the two, but the last two, which say that one of them is to be rung, once. */
struct lane_words {
    _Alignas(64) _Atomic uint32_t written; /* bytes that were put in, modulo 2^32 */
    _Alignas(64) _Atomic uint32_t taken;   /* bytes that were taken out */
    _Alignas(64) _Atomic uint32_t reader_sleeps;
    _Atomic uint32_t writer_sleeps;
};

struct lanes_memory {
    struct lane_words up, down;
};

/* One end of a lane. */
struct lane {
    struct lane_words *words;
    uint8_t *bytes;
    uint32_t size; /* a power of 2 */
    uint32_t own;  /* the own place: of `written` for its writer, of `taken` for its reader */
};

static inline struct lane lane_up(void *memory) {
    return (struct lane){&((struct lanes_memory *)memory)->up, (uint8_t *)memory + LANES_FRONT, LANE_UP, 0};
}

static inline struct lane lane_down(void *memory) {
    return (struct lane){&((struct lanes_memory *)memory)->down, (uint8_t *)memory + LANES_FRONT + LANE_UP, LANE_DOWN, 0};
}

/* Bytes that the reader may take; more than `size`: the writer's word is no place. */
static inline uint32_t lane_held(const struct lane *l) {
    return atomic_load(&l->words->written) - l->own;
}

/* Bytes that the writer may put; more than `size`: the reader's word is no place. */
static inline uint32_t lane_room(const struct lane *l) {
    return l->size - (l->own - atomic_load(&l->words->taken));
}

static inline bool lane_is_broken(uint32_t held_or_room, const struct lane *l) { return held_or_room > l->size; }

/* Copies up to `most` bytes of those that are held out of the lane. */
static inline size_t lane_take(struct lane *l, uint8_t *to, size_t most, uint32_t held) {
    uint32_t count = held < most ? held : (uint32_t)most, at = l->own & (l->size - 1);
    uint32_t front = count < l->size - at ? count : l->size - at;
    memcpy(to, l->bytes + at, front);
    if (count > front) memcpy(to + front, l->bytes, count - front);
    l->own += count;
    atomic_store(&l->words->taken, l->own);
    return count;
}

/* Copies bytes for which there is room behind `ahead` others that are not told yet. */
static inline void lane_put(const struct lane *l, uint32_t ahead, const uint8_t *from, uint32_t count) {
    uint32_t at = (l->own + ahead) & (l->size - 1), front = count < l->size - at ? count : l->size - at;
    if (front) memcpy(l->bytes + at, from, front);
    if (count > front) memcpy(l->bytes, from + front, count - front);
}

/* Tells the reader of so many bytes that were put. */
static inline void lane_tell(struct lane *l, uint32_t count) {
    l->own += count;
    atomic_store(&l->words->written, l->own);
}

/* Says that one is about to sleep. What the lane holds is to be looked at behind it: of one who sleeps and one who puts or takes,
 * at least one sees what the other did, since all places and words are in one order. */
static inline void lane_sleep(_Atomic uint32_t *word) { atomic_store(word, 1); }

/* Whether the other is to be rung, after bytes were told or taken: it is asked once for each time that it sleeps. */
static inline bool lane_wakes(_Atomic uint32_t *word) {
    return atomic_load(word) != 0 && atomic_exchange(word, 0) != 0;
}
#endif
