/* The loop; see loop.h.
 * A client is looked at where something came for it, and freed only at the end of a turn.
 * Asks are heard in turns, so many of each client, and another client is first each time. */
#include "loop.h"
#include "audit.h"
#include "control.h"
#include "lanes.h"
#include "log.h"
#include "../spin.h"
#include "users.h"
#include <errno.h>
#include <sched.h>
#include <signal.h>
#include <string.h>
#include <sys/epoll.h>
#include <sys/signalfd.h>
#include <unistd.h>

enum { EVENTS = 256, VISITS = 16, ACCEPT_AT_ONCE = 64, AGAIN_MS = 50, PAUSE_MS = 1000, SIGNALS = CPGRING_MOST_NODES };
enum { LOOKS = 16 /* at lanes, for one at the sockets */, TURNS_WITHOUT_SOCKETS = 8 };

static struct {
    int epoll, signals;
    struct ring *ring;
    struct sockets *sockets;
    const struct options *options;
    bool stopping;
    uint64_t stop_by; /* in milliseconds */
    uint64_t paused_until, again_at;
    struct spin spin;
    unsigned turns_without_sockets;
} loop;

static uint64_t now_ms(void) { return now_us() / 1000; }

bool loop_block_signals(void) {
    sigset_t set;
    sigemptyset(&set);
    sigaddset(&set, SIGTERM);
    sigaddset(&set, SIGINT);
    sigaddset(&set, SIGHUP);
    signal(SIGPIPE, SIG_IGN);
    return sigprocmask(SIG_BLOCK, &set, NULL) == 0;
}

/* ---- what is watched ---- */

static bool watch_number(int fd, uint64_t number) {
    struct epoll_event e = {.events = EPOLLIN, .data.u64 = number};
    return epoll_ctl(loop.epoll, EPOLL_CTL_ADD, fd, &e) == 0;
}

static void unwatch_listeners(void) {
    for (unsigned k = 0; k < loop.sockets->count; k++)
        if (loop.sockets->listener[k] >= 0) epoll_ctl(loop.epoll, EPOLL_CTL_DEL, loop.sockets->listener[k], NULL);
}

static bool watch_listeners(void) {
    for (unsigned k = 0; k < loop.sockets->count; k++)
        if (!watch_number(loop.sockets->listener[k], k)) return false;
    return true;
}

static void watch_client(struct client *c) {
    if (c->lanes) { /* its socket tells of rings and of its end alone */
        if (c->full || lanes_have_work(c)) lanes_heat(c);
        return;
    }
    uint32_t interest = (bytes_held(&c->in) < READ_BELOW ? (uint32_t)EPOLLIN : 0) | (c->full ? (uint32_t)EPOLLOUT : 0);
    struct epoll_event e = {.events = interest, .data.ptr = c};
    if (c->hung || interest == c->interest) return;
    if (epoll_ctl(loop.epoll, EPOLL_CTL_MOD, c->fd, &e) != 0) client_end(c, END_NO_MEMORY);
    c->interest = interest;
}

static void accept_some(unsigned index) {
    bool more = true;
    for (unsigned k = 0; k < ACCEPT_AT_ONCE && more; k++) {
        struct client *c = sockets_accept(loop.sockets, &loop.ring->nodes[index], index, &more);
        if (!c) continue;
        struct epoll_event e = {.events = EPOLLIN, .data.ptr = c};
        c->interest = EPOLLIN;
        if (epoll_ctl(loop.epoll, EPOLL_CTL_ADD, c->fd, &e) != 0) client_end(c, END_NO_MEMORY);
    }
    if (!loop.sockets->paused || loop.paused_until) return;
    log_line(LOG_WARNING, "no file descriptor is left: nobody is let in for a while");
    unwatch_listeners();
    loop.paused_until = now_ms() + PAUSE_MS;
}

static void begin_stop(const char *why) {
    if (loop.stopping) return;
    log_line(LOG_NOTICE, "%s: the daemon ends", why);
    loop.stopping = true;
    loop.stop_by = now_ms() + 1000 * (uint64_t)loop.options->stop_seconds;
    if (!loop.paused_until) unwatch_listeners();
    for (unsigned k = 0; k < loop.ring->count; k++) loop.ring->nodes[k].closed_for_calls = true;
}

static void take_signals(void) {
    struct signalfd_siginfo info;
    while (read(loop.signals, &info, sizeof info) == (ssize_t)sizeof info)
        if (info.ssi_signo == SIGHUP)
            log_line(LOG_WARNING, "SIGHUP is refused: the conf is fixed while the daemon runs; stop it and start it anew");
        else begin_stop(info.ssi_signo == SIGTERM ? "SIGTERM" : "SIGINT");
}

/* Whether there were any. */
static bool take_events(int wait) {
    struct epoll_event events[EVENTS];
    int count = epoll_wait(loop.epoll, events, EVENTS, wait);
    for (int k = 0; k < count; k++) {
        uint64_t number = events[k].data.u64;
        if (number < CPGRING_MOST_NODES) accept_some((unsigned)number);
        else if (number == SIGNALS) take_signals();
        else {
            struct client *c = events[k].data.ptr;
            if (events[k].events & EPOLLOUT) c->full = false;
            client_activate(c);
            if (events[k].events & (EPOLLHUP | EPOLLERR)) {
                client_read_out(c);
                epoll_ctl(loop.epoll, EPOLL_CTL_DEL, c->fd, NULL);
            } else if (events[k].events & EPOLLIN) {
                client_read(c);
                if (c->hung) epoll_ctl(loop.epoll, EPOLL_CTL_DEL, c->fd, NULL); /* else it would say so again and again */
            }
        }
    }
    return count > 0;
}

/* ---- a turn ---- */

static void hear(struct node *node) {
    unsigned active = 0;
    for (struct client *c = node->first_active; c; c = c->next_active) active++;
    if (active == 0) return;
    node->listings = MOST_LISTINGS;
    unsigned each = MOST_WAITING / active > 0 ? MOST_WAITING / active : 1;
    struct client *c = node->first_active;
    for (unsigned k = 0; k < active && c; k++) {
        struct client *next = c->next_active;
        if (client_hear(c, each) > 0) { /* who was not heard is first the next time */
            client_rest(c);
            client_activate(c);
        }
        c = next;
    }
}

static void drop(struct client *c) {
    struct node *node = c->node;
    uint32_t pid = c->pid;
    client_write(c);
    close(c->fd);
    client_free(c);
    for (struct client *it = node->clients; it; it = it->next)
        if (it->pid == pid) client_activate(it); /* its join may have waited for this */
    if (loop.paused_until) loop.paused_until = 1;
}

/* Whether there is something to do for a client at once: an ask to be heard, events to be taken, an audit to be told. */
static bool has_work(const struct client *c) {
    bool has_room = out_held(&c->out) <= limits.room;
    return client_hearable(c) || (c->told && has_room) || (c->auditing && has_room);
}

/* Writes what a client is told. Whether it has work at once; one that needs nothing more is no longer active. */
static bool tend(struct client *c, bool queue_full) {
    const struct node *node = c->node;
    if (!queue_full && !node->closed_for_calls && c->user->waiting[node->setup.node - 1] < limits.user_calls) c->blocked = false;
    if (c->auditing && c->end == END_NOT) control_go_on(c);
    if (c->hung) out_drop(&c->out, out_held(&c->out));
    else if (!c->full && out_held(&c->out) > 0) c->full = !client_write(c);
    client_account(c);
    if (c->hung && ask_at(c, &(struct head){0}) == 0) client_end(c, END_CLOSED);
    watch_client(c);
    if (c->end != END_NOT) {
        drop(c);
        return true; /* who waited for that is looked at anew */
    }
    bool work = has_work(c);
    if (!work && !c->blocked) {
        bytes_shrink(&c->in, client_kept(c));
        client_rest(c);
    }
    return work;
}

static bool tend_all(struct node *node) {
    size_t waiting = 0;
    bool more = false;
    cpgring_waiting(&node->ring, &waiting);
    for (struct client *c = node->first_active, *next; c; c = next) {
        next = c->next_active;
        more = tend(c, waiting >= MOST_WAITING) || more;
    }
    return more;
}

/* Whether a client that was looked at already was ended since, for what another one made of their user's limits. */
static bool has_ended(const struct node *node) {
    for (const struct client *c = node->first_active; c; c = c->next_active)
        if (c->end != END_NOT) return true;
    return false;
}

static bool turn(void) {
    struct ring *ring = loop.ring;
    for (unsigned k = 0; k < ring->count; k++) hear(&ring->nodes[k]);
    bool more = gate_pump(&ring->gate, VISITS);
    for (unsigned k = 0; k < ring->count; k++) node_tell(&ring->nodes[k]);
    for (unsigned k = 0; k < ring->count; k++) more = tend_all(&ring->nodes[k]) || more;
    for (unsigned k = 0; k < ring->count && !more; k++) more = has_ended(&ring->nodes[k]);
    return more;
}

/* ---- clocks ---- */

static void end_silent(void) {
    struct client *c;
    while ((c = user_ungreeted_oldest(NULL)) && c->came + 1000 * (uint64_t)limits.greet_seconds <= now_ms()) client_end(c, END_SILENT);
}

static void listen_again(void) {
    if (!loop.paused_until || loop.paused_until > now_ms() || loop.stopping) return;
    loop.paused_until = 0;
    loop.sockets->paused = false;
    if (loop.sockets->spare < 0) loop.sockets->spare = dup(loop.epoll);
    watch_listeners();
}

/* Milliseconds until something is due though nothing comes; -1: nothing is. */
static int rest(void) {
    uint64_t at = UINT64_MAX, now = now_ms();
    const struct client *oldest = user_ungreeted_oldest(NULL);
    if (oldest) at = oldest->came + 1000 * (uint64_t)limits.greet_seconds;
    if (loop.paused_until && loop.paused_until < at) at = loop.paused_until;
    if (loop.stopping && loop.stop_by < at) at = loop.stop_by;
    if (loop.again_at && loop.again_at < at) at = loop.again_at;
    if (at == UINT64_MAX) return -1;
    return at <= now ? 0 : (int)(at - now);
}

/* Looks again and again for what comes, for as long as that has paid lately; clients have the processor between looks. */
static bool look_until(uint64_t end) {
    while (clock_ns() < end) {
        for (unsigned k = 0; k < LOOKS; k++) {
            if (lanes_look()) return true;
            spin_pause();
        }
        if (take_events(0)) return true;
        sched_yield();
    }
    return false;
}

static void wait_for_work(void) {
    uint64_t began = clock_ns();
    if (!look_until(began + loop.spin.now) && lanes_sleep()) take_events(rest());
    spin_learn(&loop.spin, clock_ns() - began);
}

/* Takes what clients ask. While their lanes have something, sockets are looked at in some turns only: that takes longer. */
static void take(bool more) {
    bool found = lanes_look();
    lanes_ring(); /* behind the look: who took all meanwhile is not rung */
    if (found && ++loop.turns_without_sockets < TURNS_WITHOUT_SOCKETS) return;
    loop.turns_without_sockets = 0;
    if (found || more) take_events(0);
    else wait_for_work();
}

static bool all_written(void) {
    for (unsigned k = 0; k < loop.ring->count; k++)
        for (const struct client *c = loop.ring->nodes[k].clients; c; c = c->next)
            if (out_held(&c->out) > 0 || c->untaken > 0) return false;
    return true;
}

static bool is_over(void) { return loop.stopping && ((gate_settled(&loop.ring->gate) && all_written()) || now_ms() >= loop.stop_by); }

static bool is_broken(void) {
    uint32_t fault = loop.ring->gate.fault;
    if (fault == CPGRING_RING_END) {
        log_line(LOG_ERROR, "the ring's places are used up");
        return true;
    }
    if (fault && !loop.again_at) {
        log_line(LOG_WARNING, "no memory for a frame: it is tried again");
        loop.again_at = now_ms() + AGAIN_MS;
    } else if (fault && loop.again_at <= now_ms()) {
        loop.again_at = 0;
        loop.ring->gate.fault = CPGRING_OK;
    }
    return false;
}

static int loop_end(void) {
    for (unsigned k = 0; k < loop.ring->count; k++)
        for (struct client *c = loop.ring->nodes[k].clients; c; c = c->next) close(c->fd);
    audit_ring_ends(loop.ring);
    close(loop.signals);
    close(loop.epoll);
    return 0;
}

int loop_run(struct ring *ring, struct sockets *sockets, const struct options *options) {
    sigset_t set;
    bool more = false;
    sigemptyset(&set);
    sigaddset(&set, SIGTERM);
    sigaddset(&set, SIGINT);
    sigaddset(&set, SIGHUP);
    loop.ring = ring;
    loop.sockets = sockets;
    loop.options = options;
    loop.spin = spin_up_to(options->spin);
    loop.epoll = epoll_create1(EPOLL_CLOEXEC);
    loop.signals = signalfd(-1, &set, SFD_NONBLOCK | SFD_CLOEXEC);
    if (loop.epoll < 0 || loop.signals < 0 || !watch_number(loop.signals, SIGNALS) || !watch_listeners()) {
        log_line(LOG_ERROR, "epoll: %s", strerror(errno));
        return 1;
    }
    audit_ring_begins(ring);
    while (!is_over()) {
        take(more);
        end_silent();
        listen_again();
        more = turn();
        if (control_stop()) begin_stop("an operator's word");
        if (ring_takes_long(ring)) lanes_ring(); /* for what was told, clients do not wait until it is done */
        uint64_t renewals = ring->renewals;
        if (is_broken() || (!loop.stopping && !ring_step(ring))) return loop_end() + 1;
        if (ring->renewals == renewals) more = ring_close_old(ring) || more;
        else more = true; /* clients are served before the old ring is closed */
        audit_follow(ring, !more);
    }
    return loop_end();
}
