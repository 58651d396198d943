/* The loop of `cpgringd --proved`; see proved.h.
 * A turn reads what came, has it heard, lets the ring settle, and writes what clients are told. A client's bytes go whole and
 * in order to its own connection, and come back so: that is all that the proof leaves to this file. */
#include "proved.h"
#include "../protocol.h"
#include "../spin.h"
#include "log.h"
#include "users.h"
#include <cpgring_served.h>
#include <errno.h>
#include <sched.h>
#include <signal.h>
#include <stdlib.h>
#include <string.h>
#include <sys/epoll.h>
#include <sys/signalfd.h>
#include <sys/socket.h>
#include <unistd.h>

enum { EVENTS = 256, ACCEPT_AT_ONCE = 64, PAUSE_MS = 1000, AGAIN_MS = 50, MOST_RING = 1000000000 };
enum { DEAD = 16384 /* connections that ended: with so many more than are open the next ring is due */ };

struct peer {
    struct ucred who;
    uint64_t number;  /* those that came before it have lower ones */
    struct user *user;
    int fd;
    uint16_t conn;    /* 0: it is not let in, and is told so once it greets */
    uint32_t refusal; /* why */
    struct bytes in;  /* what came and was not heard */
    struct bytes out; /* what it is told and its socket did not take */
    size_t counted;   /* bytes of `out`, of which its user was charged */
    uint64_t came;    /* when, in milliseconds; 0 once an ask of it was heard */
    uint32_t interest;
    bool hung; /* the other end is closed: what it left is heard, and then it goes */
    bool gone;
};

static struct {
    cpgring_served node;
    cpgring_setup setup;
    const struct admission *admission;
    const struct options *options;
    int listener, epoll, signals;
    struct peer **peers;
    size_t count, room, first; /* another one is heard first in each turn */
    size_t silent;             /* of whom no ask was heard */
    size_t hung;               /* whose other end is closed */
    uint64_t arrived;          /* how many ever came */
    uint32_t carried;          /* places with which the ring began */
    uint64_t heard;            /* bytes, in this ring */
    uint64_t renewals;
    bool more;                 /* something could not be heard yet */
    uint64_t again_at, paused_until, stop_by; /* in milliseconds; 0: not */
    struct spin spin;
} proved;

static uint64_t now_ms(void) { return clock_ns() / 1000000; }

bool proved_open(const struct admission *admission, const struct options *options) {
    cpgring_fault fault = {0, 0};
    proved.admission = admission;
    proved.options = options;
    proved.spin = spin_up_to(options->spin);
    proved.setup = (cpgring_setup){options->ring, 1, 1, CPGRING_MOST_PLACES, CPGRING_MOST_HOPS};
    uint32_t status = cpgring_served_open(&proved.node, &proved.setup, (const uint8_t *)admission->names, admission->names_len,
                                          (const uint8_t *)admission->conf, admission->conf_len, &fault);
    if (status == CPGRING_OK) return true;
    log_line(LOG_ERROR, "the ring can't be opened: %s, line %u of text %u", cpgring_refusal_text(status), fault.line, fault.text);
    return false;
}

/* ---- clients ---- */

static bool watch(int fd, int how, uint32_t interest, void *what) {
    struct epoll_event e = {.events = interest, .data.ptr = what};
    return epoll_ctl(proved.epoll, how, fd, &e) == 0;
}

static bool peers_have_room(void) {
    if (proved.count < proved.room) return true;
    size_t room = proved.room ? 2 * proved.room : 64;
    struct peer **peers = realloc(proved.peers, room * sizeof *peers);
    if (!peers) return false;
    proved.peers = peers;
    proved.room = room;
    return true;
}

/* A connection of that process. NULL: the limits have no place for it, or there is no memory. */
static struct peer *peer_new(int fd, struct ucred who) {
    struct user *user = user_get(who.uid);
    bool has_place = user && proved.count < limits.connections && user->connections < limits.user_connections && peers_have_room();
    struct peer *p = has_place ? calloc(1, sizeof *p) : NULL;
    if (p) *p = (struct peer){.who = who, .number = ++proved.arrived, .user = user, .fd = fd, .came = now_ms(), .interest = EPOLLIN};
    if (!p || !watch(fd, EPOLL_CTL_ADD, EPOLLIN, p)) {
        if (user) user_put(user);
        free(p);
        return NULL;
    }
    p->refusal = cpgring_served_arrive(&proved.node, (uint32_t)who.pid, who.uid, who.gid, &p->conn);
    if (p->refusal != CPGRING_OK) p->conn = 0;
    user->connections++;
    proved.silent++;
    proved.peers[proved.count++] = p;
    return p;
}

static bool peer_comes(int fd) {
    struct ucred who;
    socklen_t len = sizeof who;
    return getsockopt(fd, SOL_SOCKET, SO_PEERCRED, &who, &len) == 0 && peer_new(fd, who);
}

static void accept_some(void) {
    for (unsigned k = 0; k < ACCEPT_AT_ONCE; k++) {
        int fd = accept4(proved.listener, NULL, NULL, SOCK_NONBLOCK | SOCK_CLOEXEC);
        if (fd >= 0 && !peer_comes(fd)) {
            log_line(LOG_INFO, "a connection is turned away: %zu are open", proved.count);
            close(fd);
        }
        if (fd >= 0) continue;
        if (errno == EMFILE || errno == ENFILE || errno == ENOBUFS || errno == ENOMEM) {
            log_line(LOG_WARNING, "no file descriptor is left: nobody is let in for a while");
            watch(proved.listener, EPOLL_CTL_DEL, 0, NULL);
            proved.paused_until = now_ms() + PAUSE_MS;
        }
        return;
    }
}

static void listen_again(void) {
    if (!proved.paused_until || proved.paused_until > now_ms() || proved.stop_by) return;
    proved.paused_until = 0;
    watch(proved.listener, EPOLL_CTL_ADD, EPOLLIN, &proved.listener);
}

/* An ask of it was heard, or it is gone. */
static void peer_speaks(struct peer *p) {
    if (p->came) proved.silent--;
    p->came = 0;
}

static void peer_free(struct peer *p) {
    peer_speaks(p);
    if (p->hung) proved.hung--;
    p->user->unread -= p->counted;
    p->user->connections--;
    user_put(p->user);
    close(p->fd);
    bytes_free(&p->in);
    bytes_free(&p->out);
    free(p);
}

/* Ends the connections of who is gone; where there is no memory for that, a later turn does. */
static void drop_gone(void) {
    for (size_t k = proved.count; k-- > 0;) {
        struct peer *p = proved.peers[k];
        if (!p->gone) continue;
        if (p->conn && cpgring_served_lost(&proved.node, p->conn) == CPGRING_MEMORY) {
            proved.again_at = now_ms() + AGAIN_MS;
            continue;
        }
        peer_free(p);
        proved.peers[k] = proved.peers[--proved.count];
        if (proved.paused_until) proved.paused_until = 1;
    }
}

/* When the first of those falls due who never greeted; those who are due are gone. */
static uint64_t silence_ends(void) {
    uint64_t first = UINT64_MAX;
    for (size_t k = 0; proved.silent > 0 && k < proved.count; k++) {
        uint64_t due = proved.peers[k]->came + 1000 * (uint64_t)limits.greet_seconds;
        if (!proved.peers[k]->came || proved.peers[k]->gone) continue;
        if (due <= now_ms()) proved.peers[k]->gone = true;
        else if (due < first) first = due;
    }
    return first;
}

/* ---- bytes ---- */

static void end_behind(struct peer *p) {
    log_line(LOG_NOTICE, "process %d is too far behind with reading: it is ended", (int)p->who.pid);
    p->gone = true;
}

/* Counts what it has not read against its user; where that is too much, the one most behind is ended. */
static void account(struct peer *p) {
    size_t held = bytes_held(&p->out);
    struct peer *worst = p;
    p->user->unread += held;
    p->user->unread -= p->counted;
    p->counted = held;
    if (held > limits.unread) end_behind(p);
    if (p->user->unread <= limits.user_unread) return;
    for (size_t k = 0; k < proved.count; k++)
        if (proved.peers[k]->user == p->user && !proved.peers[k]->gone && proved.peers[k]->counted > worst->counted) worst = proved.peers[k];
    if (!worst->gone) end_behind(worst);
}

static void hang(struct peer *p) {
    if (p->hung) return;
    watch(p->fd, EPOLL_CTL_DEL, 0, NULL); /* else it would say so again and again */
    p->hung = true;
    proved.hung++;
    bytes_free(&p->out);
}

static void read_once(struct peer *p, size_t most) {
    uint8_t *at = bytes_room(&p->in, most);
    if (!at) {
        p->gone = true;
        return;
    }
    ssize_t got = recv(p->fd, at, most, MSG_DONTWAIT);
    if (got > 0) p->in.end += (size_t)got;
    else if (got == 0 || (errno != EAGAIN && errno != EINTR)) hang(p);
}

static void read_some(struct peer *p) {
    size_t held = bytes_held(&p->in);
    if (!p->hung && held < READ_BELOW) read_once(p, MOST_IN - held);
}

/* Reads all that a client left whose other end is closed: its end comes behind that, and before what its process asks later. */
static void read_out(struct peer *p) {
    size_t held;
    do {
        held = bytes_held(&p->in);
        read_once(p, MOST_IN);
    } while (!p->hung && bytes_held(&p->in) > held && bytes_held(&p->in) < MOST_LEFT);
    hang(p);
}

/* How many bytes the socket took. */
static size_t send_some(struct peer *p, const uint8_t *at, size_t len) {
    size_t sent = 0;
    while (sent < len) {
        ssize_t put = send(p->fd, at + sent, len - sent, MSG_NOSIGNAL | MSG_DONTWAIT);
        if (put < 0 && errno == EINTR) continue;
        if (put < 0 && errno != EAGAIN) read_out(p);
        if (put < 0) break;
        sent += (size_t)put;
    }
    return sent;
}

static void write_held(struct peer *p) {
    if (!p->hung && bytes_held(&p->out) > 0) bytes_drop(&p->out, send_some(p, p->out.at + p->out.begin, bytes_held(&p->out)));
}

/* Writes what the client is told; what its socket does not take is held here. */
static void write_told(struct peer *p) {
    const uint8_t *at = NULL;
    size_t len = 0;
    if (!p->conn || cpgring_served_output(&proved.node, p->conn, &at, &len) != CPGRING_OK || len == 0) return;
    size_t sent = bytes_held(&p->out) == 0 ? send_some(p, at, len) : 0;
    uint8_t *room = !p->hung && sent < len ? bytes_room(&p->out, len - sent) : NULL;
    if (room) {
        memcpy(room, at + sent, len - sent);
        p->out.end += len - sent;
    }
    if (!p->hung && sent < len && !room) p->gone = true;
    cpgring_served_wrote(&proved.node, p->conn, len);
}

/* Who is not let in is told so, once it greets. */
static void turn_away(struct peer *p) {
    struct head head;
    struct hello hello = {.status = status_of_refusal(p->refusal)};
    uint8_t answer[sizeof head + sizeof hello];
    if (bytes_held(&p->in) < sizeof head) return;
    memcpy(&head, p->in.at + p->in.begin, sizeof head);
    head = (struct head){sizeof hello, ASK_HELLO | ANSWER, head.tag};
    memcpy(answer, &head, sizeof head);
    memcpy(answer + sizeof head, &hello, sizeof hello);
    send_some(p, answer, sizeof answer);
    p->gone = true;
}

/* Whether an earlier connection of the process is about to end: that comes before what this one asks. */
static bool is_behind(const struct peer *p) {
    if (proved.hung == 0 || bytes_held(&p->in) == 0) return false;
    for (size_t k = 0; k < proved.count; k++)
        if (proved.peers[k]->hung && proved.peers[k]->number < p->number && proved.peers[k]->who.pid == p->who.pid) return true;
    return false;
}

static void hear(struct peer *p) {
    size_t heard = 0;
    uint32_t why = CPGRING_HEARD_ALL;
    if (p->gone || proved.stop_by || (!p->hung && bytes_held(&p->out) > limits.room) || is_behind(p)) return;
    if (!p->conn) {
        turn_away(p);
    } else if (bytes_held(&p->in) > 0) {
        if (cpgring_served_hear(&proved.node, p->conn, p->in.at + p->in.begin, bytes_held(&p->in), &heard, &why) != CPGRING_OK) p->gone = true;
        bytes_drop(&p->in, heard);
        proved.heard += heard;
        if (heard > 0) peer_speaks(p);
    }
    if (why == CPGRING_HEARD_FULL) proved.more = true;
    if (why == CPGRING_HEARD_NO_MEMORY) proved.again_at = now_ms() + AGAIN_MS;
    if (why == CPGRING_HEARD_BROKEN || (why == CPGRING_HEARD_ALL && p->hung)) p->gone = true;
}

static void watch_for(struct peer *p) {
    uint32_t interest = (bytes_held(&p->in) < READ_BELOW && bytes_held(&p->out) <= limits.room ? (uint32_t)EPOLLIN : 0) |
                        (bytes_held(&p->out) > 0 ? (uint32_t)EPOLLOUT : 0);
    if (p->hung || interest == p->interest) return;
    if (!watch(p->fd, EPOLL_CTL_MOD, interest, p)) p->gone = true;
    p->interest = interest;
}

/* ---- the ring ---- */

static bool is_due(void) {
    size_t connections = 0;
    uint32_t places = 0;
    cpgring_served_reached(&proved.node, &connections, &places);
    return places >= proved.carried + proved.options->places || proved.heard >= proved.options->ring_bytes ||
           connections >= proved.count + DEAD;
}

/* Begins the next ring, of which no client is told: connections have new numbers. */
static void renew(void) {
    static uint16_t numbers[UINT16_MAX];
    const struct admission *a = proved.admission;
    cpgring_fault fault = {0, 0};
    cpgring_setup next = proved.setup;
    size_t connections = 0;
    next.ring = next.ring % MOST_RING + 1;
    uint32_t status = cpgring_served_renew(&proved.node, &next, (const uint8_t *)a->names, a->names_len, (const uint8_t *)a->conf, a->conf_len,
                                           &fault, numbers, UINT16_MAX);
    if (status != CPGRING_OK) {
        log_line(LOG_WARNING, "the next ring does not begin yet: %s", cpgring_refusal_text(status));
        proved.again_at = now_ms() + AGAIN_MS;
        return;
    }
    for (size_t k = 0; k < proved.count; k++)
        if (proved.peers[k]->conn) proved.peers[k]->conn = numbers[proved.peers[k]->conn - 1];
    proved.setup = next;
    proved.heard = 0;
    proved.renewals++;
    cpgring_served_reached(&proved.node, &connections, &proved.carried);
    log_line(LOG_DEBUG, "ring %u begins with %u places", next.ring, proved.carried);
}

/* ---- turns ---- */

static void take_signals(void) {
    struct signalfd_siginfo info;
    while (read(proved.signals, &info, sizeof info) == (ssize_t)sizeof info)
        if (info.ssi_signo == SIGHUP)
            log_line(LOG_WARNING, "SIGHUP is refused: the conf is fixed while the daemon runs; stop it and start it anew");
        else if (!proved.stop_by) {
            log_line(LOG_NOTICE, "%s: the daemon ends", info.ssi_signo == SIGTERM ? "SIGTERM" : "SIGINT");
            if (!proved.paused_until) watch(proved.listener, EPOLL_CTL_DEL, 0, NULL);
            proved.stop_by = now_ms() + 1000 * (uint64_t)proved.options->stop_seconds;
        }
}

/* Whether there were any. */
static bool take_events(int wait) {
    struct epoll_event events[EVENTS];
    int count = epoll_wait(proved.epoll, events, EVENTS, wait);
    for (int k = 0; k < count; k++) {
        struct peer *p = events[k].data.ptr;
        if (events[k].data.ptr == &proved.listener) accept_some();
        else if (events[k].data.ptr == &proved.signals) take_signals();
        else {
            if (events[k].events & EPOLLOUT) write_held(p);
            if (events[k].events & (EPOLLHUP | EPOLLERR)) read_out(p);
            else if (events[k].events & EPOLLIN) read_some(p);
        }
    }
    return count > 0;
}

/* Milliseconds until something is due though nothing comes; -1: nothing is. */
static int rest(void) {
    uint64_t at = UINT64_MAX, now = now_ms();
    const uint64_t due[] = {proved.again_at, proved.paused_until, proved.stop_by, silence_ends()};
    for (unsigned k = 0; k < sizeof due / sizeof *due; k++)
        if (due[k] && due[k] < at) at = due[k];
    if (at == UINT64_MAX) return -1;
    return at <= now ? 0 : (int)(at - now);
}

/* Looks again and again for what comes, for as long as that has paid lately, and then sleeps. */
static void wait_for_work(void) {
    uint64_t began = clock_ns();
    bool came = false;
    while (!came && clock_ns() - began < proved.spin.now) {
        came = take_events(0);
        if (!came) sched_yield();
    }
    if (!came) take_events(rest());
    spin_learn(&proved.spin, clock_ns() - began);
}

static void settle(void) {
    uint32_t status = cpgring_served_settle(&proved.node);
    if (status == CPGRING_OK) return;
    log_line(LOG_WARNING, "the ring does not come to rest: %s", cpgring_refusal_text(status));
    proved.again_at = now_ms() + AGAIN_MS;
}

/* Whether the next turn follows at once: the client goes, or what it left is to be heard. */
static bool is_due_at_once(const struct peer *p) { return p->gone || (p->hung && !proved.again_at && !proved.stop_by); }

static void turn(void) {
    proved.more = false;
    if (proved.again_at && proved.again_at <= now_ms()) proved.again_at = 0;
    silence_ends();
    drop_gone(); /* an end stands before what a later connection of its process asks */
    for (size_t k = 0; k < proved.count; k++) hear(proved.peers[(proved.first + k) % proved.count]);
    proved.first++;
    settle();
    for (size_t k = 0; k < proved.count; k++) {
        write_told(proved.peers[k]);
        account(proved.peers[k]);
        watch_for(proved.peers[k]);
        proved.more = proved.more || is_due_at_once(proved.peers[k]);
    }
    if (is_due() && !proved.again_at) renew();
}

static bool is_over(void) {
    if (!proved.stop_by) return false;
    for (size_t k = 0; k < proved.count; k++)
        if (bytes_held(&proved.peers[k]->out) > 0) return now_ms() >= proved.stop_by;
    return true;
}

int proved_run(struct sockets *sockets) {
    sigset_t set;
    sigemptyset(&set);
    sigaddset(&set, SIGTERM);
    sigaddset(&set, SIGINT);
    sigaddset(&set, SIGHUP);
    proved.listener = sockets->listener[0];
    proved.epoll = epoll_create1(EPOLL_CLOEXEC);
    proved.signals = signalfd(-1, &set, SFD_NONBLOCK | SFD_CLOEXEC);
    if (proved.epoll < 0 || proved.signals < 0 || !watch(proved.signals, EPOLL_CTL_ADD, EPOLLIN, &proved.signals) ||
        !watch(proved.listener, EPOLL_CTL_ADD, EPOLLIN, &proved.listener)) {
        log_line(LOG_ERROR, "epoll: %s", strerror(errno));
        return 1;
    }
    while (!is_over()) {
        if (proved.more) take_events(0);
        else wait_for_work();
        listen_again();
        turn();
    }
    log_line(LOG_INFO, "renewals %llu", (unsigned long long)proved.renewals);
    return 0;
}

void proved_close(void) {
    for (size_t k = 0; k < proved.count; k++) peer_free(proved.peers[k]);
    free(proved.peers);
    proved.count = 0;
    proved.peers = NULL;
    cpgring_served_close(&proved.node);
}
