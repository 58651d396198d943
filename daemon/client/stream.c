/* The stream of a handle: asks on their way out, answers and events on their way in.
 * Whichever thread reads takes what is there for all: an answer is kept for who waits for it, events for a dispatch.
 * Every wait has a limit, and ends where the daemon is gone. */
#include "instance.h"
#include <errno.h>
#include <poll.h>
#include <stdlib.h>
#include <string.h>
#include <sys/epoll.h>
#include <sys/eventfd.h>
#include <sys/socket.h>
#include <time.h>

enum { STEP_MS = 100, TRY_NS = 200000, LANE_NS = 1000000, SHORT_ASK = 1024 };
enum { MORE_BEHIND = 16 << 10 /* bytes of a read behind which there is likely more */ };

uint64_t clock_ms(void) {
    struct timespec t;
    clock_gettime(CLOCK_MONOTONIC, &t);
    return (uint64_t)t.tv_sec * 1000 + (uint64_t)t.tv_nsec / 1000000;
}

uint8_t *buffer_room(struct buffer *b, size_t more) {
    if (b->at && b->room - b->end >= more) return b->at + b->end;
    size_t room = b->room ? b->room : READ_AT_ONCE + 65536;
    while (room - b->end < more) {
        if (room > SIZE_MAX / 2) return NULL;
        room *= 2;
    }
    uint8_t *at = realloc(b->at, room);
    if (!at) return NULL;
    b->at = at;
    b->room = room;
    return b->at + b->end;
}

/* ---- reading ---- */

static void take_answer(struct instance *i, const struct head *head, const uint8_t *body) {
    if (head->tag != i->wanted || i->wanted == 0) return; /* of a call that waits no more */
    i->answer = malloc(head->len + 1);
    if (!i->answer) {
        i->broken = true;
        return;
    }
    memcpy(i->answer, body, head->len);
    i->answer_len = head->len;
    i->wanted = 0;
    eventfd_write(i->noted, 1);
}

/* Takes answers out, as far as frames are whole. The lock `in` is held. */
static void parse(struct instance *i) {
    struct head head;
    while (i->read.end - i->parsed >= sizeof head) {
        memcpy(&head, i->read.at + i->parsed, sizeof head);
        if (head.len > MOST_TELL) {
            i->broken = true;
            return;
        }
        if (i->read.end - i->parsed < sizeof head + head.len) return;
        const uint8_t *body = i->read.at + i->parsed + sizeof head;
        if (head.kind & ANSWER) {
            take_answer(i, &head, body);
            head.kind = TELL_SKIP;
            memcpy(i->read.at + i->parsed, &head, sizeof head);
        } else if (head.kind == TELL_DENIED && head.len >= sizeof(struct tell_denied)) {
            struct tell_denied denied;
            memcpy(&denied, body, sizeof denied);
            i->denied = (int)denied.status;
        }
        i->parsed += sizeof head + head.len;
    }
}

/* The read of a greeting's answer: descriptors may come with it. */
static ssize_t receive_given(struct instance *i, uint8_t *at, size_t most) {
    union {
        struct cmsghdr head;
        char room[CMSG_SPACE(sizeof i->given)];
    } control;
    struct iovec part = {at, most};
    struct msghdr message = {.msg_iov = &part, .msg_iovlen = 1, .msg_control = control.room, .msg_controllen = sizeof control.room};
    ssize_t got = recvmsg(i->fd, &message, MSG_DONTWAIT | MSG_CMSG_CLOEXEC);
    struct cmsghdr *head = got > 0 ? CMSG_FIRSTHDR(&message) : NULL;
    if (got > 0 && message.msg_flags & MSG_CTRUNC) i->cut_off = true;
    if (!head || head->cmsg_level != SOL_SOCKET || head->cmsg_type != SCM_RIGHTS) return got;
    size_t count = (head->cmsg_len - CMSG_LEN(0)) / sizeof(int);
    memcpy(i->given, CMSG_DATA(head), (count < 2 ? count : 2) * sizeof(int));
    return got;
}

/* As recv. */
static ssize_t receive(struct instance *i, uint8_t *at, size_t most) {
    if (i->memory) return lanes_receive(i, at, most);
    return i->greeting ? receive_given(i, at, most) : recv(i->fd, at, most, MSG_DONTWAIT);
}

bool stream_fetch(struct instance *i) {
    if (i->broken) return false;
    if (i->read.begin == i->read.end) i->read.begin = i->read.end = i->parsed = 0;
    uint8_t *at = buffer_room(&i->read, READ_AT_ONCE);
    if (!at) {
        i->broken = true;
        return false;
    }
    ssize_t got = receive(i, at, READ_AT_ONCE);
    i->drained = got < MORE_BEHIND || i->memory;
    if (got > 0) {
        i->read.end += (size_t)got;
        parse(i);
        return true;
    }
    if (got == 0 || (errno != EAGAIN && errno != EINTR)) {
        i->broken = true;
        eventfd_write(i->noted, 1);
    }
    return false;
}

void stream_mark(struct instance *i) {
    bool wants = i->now_left || i->read.begin < i->parsed;
    eventfd_t value;
    if (wants == i->ready_set) return;
    if (wants) eventfd_write(i->ready, 1);
    else eventfd_read(i->ready, &value);
    i->ready_set = wants;
}

/* Takes what there is out of the socket, since the daemon hears no more of who does not read, and many a program tries again
 * and again without a dispatch. */
static void drain(struct instance *i) {
    pthread_mutex_lock(&i->in);
    if (i->read.end - i->read.begin < MOST_KEPT) stream_fetch(i);
    lanes_settle(i, true);
    stream_mark(i);
    pthread_mutex_unlock(&i->in);
}

/* ---- writing ---- */

/* While something is left to be sent, the descriptor for poll says when the socket takes more: a dispatch then sends it. */
static void set_rest_left(struct instance *i, bool left) {
    struct epoll_event e = {.events = left ? EPOLLIN | EPOLLOUT : EPOLLIN};
    if (i->rest_left == left) return;
    i->rest_left = left;
    if (!i->memory) epoll_ctl(i->poll_fd, EPOLL_CTL_MOD, i->fd, &e);
}

bool stream_flush(struct instance *i) {
    while (i->rest.begin < i->rest.end && !i->broken) {
        struct iovec part = {i->rest.at + i->rest.begin, i->rest.end - i->rest.begin};
        ssize_t put = i->memory ? lanes_send(i, &part, 1, 1) : send(i->fd, part.iov_base, part.iov_len, MSG_NOSIGNAL | MSG_DONTWAIT);
        if (put < 0 && errno == EINTR) continue;
        if (put < 0) {
            if (errno != EAGAIN) i->broken = true;
            return false;
        }
        i->rest.begin += (size_t)put;
    }
    if (i->broken) return false;
    i->rest.begin = i->rest.end = 0;
    set_rest_left(i, false);
    return true;
}

bool stream_flush_any(struct instance *i) {
    pthread_mutex_lock(&i->out);
    bool all = stream_flush(i);
    pthread_mutex_unlock(&i->out);
    return all;
}

/* Keeps what the socket did not take, to be sent before anything else. */
static void keep_rest(struct instance *i, const struct iovec *parts, unsigned count) {
    for (unsigned k = 0; k < count; k++) {
        uint8_t *at = buffer_room(&i->rest, parts[k].iov_len);
        if (!at) {
            i->broken = true;
            return;
        }
        if (parts[k].iov_len) memcpy(at, parts[k].iov_base, parts[k].iov_len);
        i->rest.end += parts[k].iov_len;
    }
    set_rest_left(i, true);
    if (i->memory) stream_flush(i); /* has the bell ring for more room */
}

static bool has_room(struct instance *i) {
    pthread_mutex_lock(&i->in);
    bool room = i->read.end - i->read.begin < MOST_KEPT;
    pthread_mutex_unlock(&i->in);
    return room;
}

/* The same of a lane: what there is is taken out of it, since the daemon may wait for that, and the bell rings for room. Another
 * thread may have taken the ring for events, so the wait is short. */
static void wait_for_room(struct instance *i, bool waits, size_t least) {
    bool reads = has_room(i);
    struct pollfd p[2] = {{i->fd, POLLIN, 0}, {i->bell, POLLIN, 0}};
    struct timespec bound = {0, waits ? LANE_NS : TRY_NS};
    drain(i);
    if (!lanes_have_room(i, least) && !i->broken && ppoll(p, reads ? 2 : 1, &bound, NULL) > 0) drain(i);
}

/* Waits until the socket may take more. The lock `out` is held. */
static void wait_to_send(struct instance *i, bool waits, size_t least) {
    if (i->memory) {
        wait_for_room(i, waits, least);
        return;
    }
    struct pollfd p = {i->fd, POLLOUT | (has_room(i) ? POLLIN : 0), 0};
    struct timespec bound = {0, waits ? STEP_MS * 1000000L : TRY_NS};
    if (ppoll(&p, 1, &bound, NULL) > 0 && p.revents & (POLLIN | POLLHUP | POLLERR)) drain(i);
}

/* Takes sent bytes off the front of the parts. How many parts are left, from `*parts` on. */
static unsigned advance(struct iovec **parts, unsigned count, size_t sent) {
    while (count > 0 && sent >= (*parts)->iov_len) {
        sent -= (*parts)->iov_len;
        ++*parts;
        count--;
    }
    if (count > 0) **parts = (struct iovec){(uint8_t *)(*parts)->iov_base + sent, (*parts)->iov_len - sent};
    return count;
}

/* The parts in one piece, where they are short. How many bytes; 0: they are not. */
static size_t gather(const struct iovec *parts, unsigned count, uint8_t *to, size_t most) {
    size_t len = 0;
    for (unsigned k = 0; k < count; k++) {
        if (parts[k].iov_len > most - len) return 0;
        if (parts[k].iov_len) memcpy(to + len, parts[k].iov_base, parts[k].iov_len);
        len += parts[k].iov_len;
    }
    return len;
}

/* As sendmsg, by the socket. To copy a short ask into one piece takes less than to have the kernel read a list of parts. */
static ssize_t send_parts(const struct instance *i, struct iovec *parts, unsigned count) {
    uint8_t piece[SHORT_ASK];
    struct msghdr message = {.msg_iov = parts, .msg_iovlen = count};
    size_t len = gather(parts, count, piece, sizeof piece);
    if (len > 0) return send(i->fd, piece, len, MSG_NOSIGNAL | MSG_DONTWAIT);
    return sendmsg(i->fd, &message, MSG_NOSIGNAL | MSG_DONTWAIT);
}

/* One write. Whether some of it was taken. */
static bool write_some(struct instance *i, struct iovec **parts, unsigned *count, size_t least) {
    ssize_t put;
    do put = i->memory ? lanes_send(i, *parts, *count, least) : send_parts(i, *parts, *count);
    while (put < 0 && errno == EINTR);
    if (put < 0 && errno != EAGAIN) i->broken = true;
    if (put > 0) *count = advance(parts, *count, (size_t)put);
    return put > 0;
}

/* How much room a lane has to have for some of the parts to be put into it. What is short goes whole or not at all; what is long
 * and may be refused begins in a lane with little in it, since it is waited for once it has begun. */
static size_t least_room(const struct iovec *parts, unsigned count, bool may_begin) {
    enum { MOST_WHOLE = 16 << 10 };
    size_t len = 0;
    for (unsigned k = 0; k < count && len <= MOST_WHOLE; k++) len += parts[k].iov_len;
    return len <= MOST_WHOLE ? len : may_begin ? LANE_UP / 4 * 3 : 1;
}

cs_error_t stream_send(struct instance *i, struct iovec *parts, unsigned count, enum way way) {
    uint64_t end = 0;
    bool begun = false, waits = way == SEND_SURELY;
    for (;;) {
        size_t least = i->memory ? least_room(parts, count, way == SEND_BEGUN && !begun) : 0;
        if (stream_flush(i) && write_some(i, &parts, &count, least)) begun = true;
        if (i->broken) return CS_ERR_LIBRARY;
        if (way == SEND_BEGUN && begun) waits = true;
        if (waits && end == 0) end = clock_ms() + i->wait_ms;
        bool late = !waits || clock_ms() >= end;
        if (count > 0 && begun && late) keep_rest(i, parts, count);
        if (count == 0 || (begun && late)) {
            i->flow = CPG_FLOW_CONTROL_DISABLED;
            return i->broken ? CS_ERR_LIBRARY : CS_OK;
        }
        wait_to_send(i, waits, least);
        if (waits && !late) continue;
        i->flow = CPG_FLOW_CONTROL_ENABLED;
        return CS_ERR_TRY_AGAIN;
    }
}

/* ---- asking ---- */

static void wait_for_answer(struct instance *i, uint64_t end) {
    short events = stream_flush_any(i) || i->memory ? POLLIN : POLLIN | POLLOUT;
    struct pollfd p[3] = {{i->fd, events, 0}, {i->noted, POLLIN, 0}, {i->bell, POLLIN, 0}};
    uint64_t now = clock_ms();
    eventfd_t value;
    poll(p, i->memory ? 3 : 2, end > now ? (int)(end - now) : 0);
    if (p[1].revents) eventfd_read(i->noted, &value);
}

/* Waits for the answer that is wanted. The lock `sync` is held. */
static cs_error_t await(struct instance *i, uint64_t end) {
    for (;;) {
        pthread_mutex_lock(&i->in);
        while (i->wanted != 0 && i->read.end - i->read.begin < 2 * (size_t)MOST_KEPT && stream_fetch(i)) {}
        bool there = i->wanted == 0, late = clock_ms() >= end, full = i->read.end - i->read.begin >= 2 * (size_t)MOST_KEPT;
        if (!there && (late || full || i->broken)) i->wanted = 0;
        bool came = !there && lanes_settle(i, true);
        stream_mark(i);
        pthread_mutex_unlock(&i->in);
        if (there) return CS_OK;
        if (i->broken) return CS_ERR_LIBRARY;
        if (full) return CS_ERR_NO_MEMORY; /* so many events wait for a dispatch */
        if (late) return CS_ERR_TIMEOUT;
        if (!came) wait_for_answer(i, end);
    }
}

static cs_error_t send_ask(struct instance *i, uint16_t kind, const void *body, uint32_t len) {
    struct head head = {len, kind, 0};
    if (++i->tag == 0) i->tag = 1;
    head.tag = i->tag;
    pthread_mutex_lock(&i->in);
    i->wanted = i->tag;
    pthread_mutex_unlock(&i->in);
    struct iovec parts[2] = {{&head, sizeof head}, {(void *)(uintptr_t)body, len}};
    pthread_mutex_lock(&i->out);
    cs_error_t result = stream_send(i, parts, 2, SEND_SURELY);
    pthread_mutex_unlock(&i->out);
    return result;
}

cs_error_t stream_ask(struct instance *i, uint16_t kind, const void *body, uint32_t len, uint8_t **answer, uint32_t *answer_len) {
    uint32_t status = CS_ERR_LIBRARY;
    uint8_t *got = NULL;
    pthread_mutex_lock(&i->sync);
    uint64_t end = clock_ms() + i->wait_ms;
    cs_error_t result = send_ask(i, kind, body, len);
    if (result == CS_OK) result = await(i, end);
    pthread_mutex_lock(&i->in);
    uint32_t got_len = i->answer_len;
    got = i->answer;
    i->answer = NULL;
    i->wanted = 0;
    pthread_mutex_unlock(&i->in);
    pthread_mutex_unlock(&i->sync);
    if (result == CS_OK && got && got_len >= sizeof status) memcpy(&status, got, sizeof status);
    if (result == CS_OK) result = (cs_error_t)status;
    if (answer) {
        *answer = got;
        *answer_len = got ? got_len : 0;
    } else free(got);
    return result;
}
