/* A handle's ends of its lanes (../lane.h), where the daemon gave it some: they stand in for the socket.
 * The bell is rung by the daemon for events that come while nobody looks, and for room that a call waits for; it may ring once
 * too often, and never too seldom. It is a part of the descriptor for poll.
 * The socket is left to ring the daemon, and to tell that it is gone. */
#include "instance.h"
#include <errno.h>
#include <fcntl.h>
#include <sched.h>
#include <sys/epoll.h>
#include <sys/eventfd.h>
#include <sys/mman.h>
#include <sys/socket.h>
#include <sys/stat.h>
#include <unistd.h>

enum { LOOKS = 16 /* before other processes have the processor */ };
enum {
    LINGER_NS = 8000,    /* a message is looked for so long at most */
    AT_ONCE_NS = 20000,  /* where the last ones were back within this */
    ALONE_FROM = 8,      /* and were so many */
    MOST_BACK_OFF = 4096 /* after looks in vain, up to so many are not looked for */
};

bool lanes_open(struct instance *i, int memory, int bell) {
    struct epoll_event e = {.events = EPOLLIN};
    struct stat there;
    if (fstat(memory, &there) != 0 || there.st_size != LANES_MEMORY || fcntl(bell, F_SETFL, O_NONBLOCK) != 0) return false;
    if (epoll_ctl(i->poll_fd, EPOLL_CTL_ADD, bell, &e) != 0) return false;
    void *at = mmap(NULL, LANES_MEMORY, PROT_READ | PROT_WRITE, MAP_SHARED, memory, 0);
    if (at == MAP_FAILED) return false;
    i->memory = at;
    i->up = lane_up(at);
    i->down = lane_down(at);
    return true;
}

void lanes_close(struct instance *i) {
    if (i->memory) munmap(i->memory, LANES_MEMORY);
    i->memory = NULL;
}

static void ring_daemon(struct instance *i) {
    if (send(i->fd, "", 1, MSG_NOSIGNAL | MSG_DONTWAIT) == 1 || errno == EAGAIN || errno == EINTR) return;
    i->broken = true;
    eventfd_write(i->noted, 1);
}

/* ---- reading ---- */

bool lanes_hold(const struct instance *i) { return i->memory && lane_held(&i->down) > 0; }

/* Whether the daemon is gone; nothing else is ever in the socket. */
static bool is_ended(const struct instance *i) {
    uint8_t none[16];
    ssize_t got = recv(i->fd, none, sizeof none, MSG_DONTWAIT);
    return got == 0 || (got < 0 && errno != EAGAIN && errno != EINTR);
}

ssize_t lanes_receive(struct instance *i, uint8_t *at, size_t most) {
    uint32_t held = lane_held(&i->down);
    if (held == 0) {
        if (!is_ended(i)) {
            errno = EAGAIN;
            return -1;
        }
        held = lane_held(&i->down); /* what it put before its end */
    }
    if (held == 0 || lane_is_broken(held, &i->down)) return 0;
    size_t count = lane_take(&i->down, at, most, held);
    if (lane_wakes(&i->down.words->writer_sleeps)) ring_daemon(i);
    return (ssize_t)count;
}

bool lanes_settle(struct instance *i, bool in_vain) {
    uint8_t rings[64];
    if (!i->memory || lanes_hold(i)) return false;
    if (!in_vain && !i->asked_room && atomic_load(&i->down.words->reader_sleeps)) return false; /* the bell is silent */
    i->asked_room = false;
    while (read(i->bell, rings, sizeof rings) == (ssize_t)sizeof rings) {}
    lane_sleep(&i->down.words->reader_sleeps);
    return lanes_hold(i) && stream_fetch(i);
}

bool lanes_look(struct instance *i, uint64_t end) {
    if (!i->memory) return false;
    while (clock_ns() < end) {
        for (unsigned k = 0; k < LOOKS; k++) {
            pthread_mutex_lock(&i->in);
            bool there = lanes_hold(i) || i->read.begin < i->parsed || i->broken;
            pthread_mutex_unlock(&i->in);
            if (there) return true;
            spin_pause();
        }
        sched_yield();
    }
    return false;
}

/* ---- writing ---- */

/* Whether this message is one of many that each came back at once, and nothing else was sent meanwhile. */
static bool is_awaited(struct instance *i, uint64_t now) {
    struct pace *p = &i->pace;
    if (p->sent_at != 0) p->alone = 0;
    else p->sent_at = now;
    if (p->alone < ALONE_FROM) return false;
    if (p->skip == 0) return true;
    p->skip--;
    return false;
}

void lanes_linger(struct instance *i) {
    struct pace *p = &i->pace;
    if (!i->memory || i->dispatch_spin.most == 0) return;
    uint64_t now = clock_ns(), end = now + LINGER_NS;
    if (!is_awaited(i, now)) return;
    while (atomic_load(&i->down.words->reader_sleeps)) { /* the daemon clears it before it rings */
        if (clock_ns() >= end) {
            p->back_off = p->back_off < MOST_BACK_OFF ? 2 * p->back_off + ALONE_FROM : MOST_BACK_OFF;
            p->skip = p->back_off;
            return;
        }
        spin_pause();
    }
    p->back_off = 0;
}

void lanes_dispatched(struct instance *i) {
    struct pace *p = &i->pace;
    uint64_t sent_at = atomic_exchange(&p->sent_at, 0);
    if (!i->memory || sent_at == 0) return;
    if (clock_ns() - sent_at > AT_ONCE_NS) p->alone = 0;
    else if (p->alone < ALONE_FROM) p->alone++;
}

bool lanes_have_room(struct instance *i, size_t least) {
    if (lane_room(&i->up) >= least) return true;
    i->asked_room = true;
    lane_sleep(&i->up.words->writer_sleeps);
    return lane_room(&i->up) >= least;
}

ssize_t lanes_send(struct instance *i, const struct iovec *parts, unsigned count, size_t least) {
    uint32_t put = 0;
    if (!lanes_have_room(i, least)) {
        errno = EAGAIN;
        return -1;
    }
    uint32_t room = lane_room(&i->up);
    if (lane_is_broken(room, &i->up)) {
        errno = EPIPE;
        return -1;
    }
    for (unsigned k = 0; k < count && put < room; k++) {
        uint32_t step = parts[k].iov_len < room - put ? (uint32_t)parts[k].iov_len : room - put;
        if (step > 0) lane_put(&i->up, put, parts[k].iov_base, step);
        put += step;
    }
    lane_tell(&i->up, put);
    if (lane_wakes(&i->up.words->reader_sleeps)) ring_daemon(i);
    return (ssize_t)put;
}
