/* How long to look again and again before one sleeps: to be woken takes longer than many a wait does.
 * It is learnt from how long the waits were lately, so that slow traffic has no time of a processor spent on it.
 * Daemon and library both do so. */
#ifndef CPGRINGD_SPIN_H
#define CPGRINGD_SPIN_H
#include <stdint.h>
#include <time.h>

struct spin {
    uint32_t most, now; /* nanoseconds: the most that a wait is looked through, and the time that the next one is */
};

static inline uint64_t clock_ns(void) {
    struct timespec t;
    clock_gettime(CLOCK_MONOTONIC, &t);
    return (uint64_t)t.tv_sec * 1000000000u + (uint64_t)t.tv_nsec;
}

static inline struct spin spin_up_to(unsigned microseconds) { return (struct spin){1000 * microseconds, 0}; }

/* Between two looks. */
static inline void spin_pause(void) {
#if defined(__x86_64__) || defined(__i386__)
    __builtin_ia32_pause();
#endif
}

/* A wait took so long: where to look through it would have paid, more of the next one is looked through, and else less. */
static inline void spin_learn(struct spin *s, uint64_t took) {
    enum { FIRST = 2000 };
    uint32_t next = took >= s->most ? s->now / 2 : s->now < FIRST ? FIRST : 2 * s->now;
    s->now = next < s->most ? next : s->most;
    if (s->now < FIRST && took >= s->most) s->now = 0;
}
#endif
