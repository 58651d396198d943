/* The daemon's ends of lanes; see lanes.h.
 * The memory's size is sealed, so that no client can take it away under the daemon. The pipe's writing end is the daemon's own,
 * so that no client can have a write to it wait. */
#include "lanes.h"
#include "sockets.h"
#include <errno.h>
#include <fcntl.h>
#include <stdlib.h>
#include <sys/mman.h>
#include <sys/resource.h>
#include <sys/socket.h>
#include <sys/uio.h>
#include <unistd.h>

enum {
    GREETING = sizeof(struct head) + sizeof(struct hello), /* bytes that still go through the socket */
    PIECES = 128,                                          /* of what is held, written at once */
    IDLE_LOOKS = 4096,                                     /* after so many in vain it has to ring again */
    ROOM_FROM = LANE_DOWN / 4                              /* where there is so much room, writing goes on */
};

static struct {
    struct client **at;
    unsigned count, room;
} hot;
static struct client *first_told;

/* ---- giving ---- */

static void close_one(int fd) {
    if (fd >= 0) close(fd);
}

/* A file in memory that nobody can execute, where the kernel knows of that: some take no other. */
static int make_file(void) {
    enum { NO_EXEC_SEAL = 8 }; /* MFD_NOEXEC_SEAL, of Linux 6.3 */
    int fd = memfd_create("cpgring-lanes", MFD_CLOEXEC | MFD_ALLOW_SEALING | NO_EXEC_SEAL);
    if (fd < 0 && errno == EINVAL) fd = memfd_create("cpgring-lanes", MFD_CLOEXEC | MFD_ALLOW_SEALING);
    return fd;
}

/* Memory of a size that nobody can change. false: there is none. */
static bool make_memory(struct lanes *lanes, int *fd) {
    *fd = make_file();
    if (*fd < 0 || ftruncate(*fd, LANES_MEMORY) != 0) return false;
    if (fcntl(*fd, F_ADD_SEALS, F_SEAL_SHRINK | F_SEAL_GROW | F_SEAL_SEAL) != 0) return false;
    void *at = mmap(NULL, LANES_MEMORY, PROT_READ | PROT_WRITE, MAP_SHARED, *fd, 0);
    if (at == MAP_FAILED) return false;
    lanes->memory = at;
    lanes->up = lane_up(at);
    lanes->down = lane_down(at);
    return true;
}

/* Whether half of all descriptors are still left for connections. */
static bool is_low(int fd) {
    struct rlimit files;
    return getrlimit(RLIMIT_NOFILE, &files) == 0 && (rlim_t)fd < files.rlim_cur / 2;
}

/* Sends the answer with both descriptors. Whether it was taken: so few bytes are taken whole or not at all. */
static bool send_greeting(int socket, const struct iovec *answer, int memory, int bell) {
    union {
        struct cmsghdr head;
        char room[CMSG_SPACE(2 * sizeof(int))];
    } control = {0};
    int given[2] = {memory, bell};
    struct iovec part = {answer->iov_base, GREETING};
    struct msghdr message = {.msg_iov = &part, .msg_iovlen = 1, .msg_control = control.room, .msg_controllen = sizeof control.room};
    struct cmsghdr *head = CMSG_FIRSTHDR(&message);
    head->cmsg_level = SOL_SOCKET;
    head->cmsg_type = SCM_RIGHTS;
    head->cmsg_len = CMSG_LEN(sizeof given);
    memcpy(CMSG_DATA(head), given, sizeof given);
    return answer->iov_len >= GREETING && sendmsg(socket, &message, MSG_NOSIGNAL | MSG_DONTWAIT) == GREETING;
}

static void lanes_destroy(struct lanes *lanes) {
    if (lanes->memory) munmap(lanes->memory, LANES_MEMORY);
    close_one(lanes->bell);
    free(lanes);
}

void lanes_give(struct client *c) {
    struct iovec answer;
    int memory = -1, ends[2] = {-1, -1};
    c->wants_lanes = false;
    if (c->user->lanes >= limits.user_lanes || out_front(&c->out, &answer, 1) == 0) return;
    struct lanes *lanes = calloc(1, sizeof *lanes);
    if (!lanes) return;
    lanes->bell = -1;
    bool good = make_memory(lanes, &memory) && pipe2(ends, O_CLOEXEC | O_NONBLOCK) == 0 && is_low(ends[1]);
    lanes->bell = ends[1];
    if (good) good = send_greeting(c->fd, &answer, memory, ends[0]);
    close_one(memory);
    close_one(ends[0]);
    if (!good) {
        lanes_destroy(lanes);
        return;
    }
    out_drop(&c->out, GREETING);
    c->lanes = lanes;
    c->user->lanes++;
    lanes_heat(c);
}

/* ---- hot ones ---- */

static void put_at(struct client *c, unsigned k) {
    hot.at[k] = c;
    c->lanes->hot_at = k + 1;
}

static void lanes_cool(struct client *c) {
    unsigned k = c->lanes->hot_at;
    if (k == 0) return;
    c->lanes->hot_at = 0;
    if (k < hot.count) put_at(hot.at[hot.count - 1], k - 1);
    hot.count--;
}

void lanes_heat(struct client *c) {
    c->lanes->idle_looks = 0;
    if (c->lanes->hot_at > 0) return;
    if (hot.count == hot.room) {
        unsigned room = hot.room ? 2 * hot.room : 64;
        struct client **at = realloc(hot.at, room * sizeof *at);
        if (!at) {
            client_end(c, END_NO_MEMORY);
            return;
        }
        hot.at = at;
        hot.room = room;
    }
    put_at(c, hot.count++);
}

void lanes_free(struct client *c) {
    if (!c->lanes) return;
    lanes_ring(); /* it is in no list behind this */
    lanes_cool(c);
    c->user->lanes--;
    lanes_destroy(c->lanes);
    c->lanes = NULL;
}

/* ---- reading and writing ---- */

/* A pipe that is full, or that nobody reads, needs nothing more. */
static void ring_bell(const struct lanes *lanes) {
    if (write(lanes->bell, "", 1) != 1) errno = 0;
}

static void ring_later(struct client *c) {
    if (c->lanes->is_told) return;
    c->lanes->is_told = true;
    c->lanes->next_told = first_told;
    first_told = c;
}

void lanes_ring(void) {
    for (struct client *c = first_told; c; c = first_told) {
        struct lanes *lanes = c->lanes;
        first_told = lanes->next_told;
        lanes->is_told = false;
        bool left = lane_room(&lanes->down) != lanes->down.size; /* else it took all, and needs no ring */
        if (left && lane_wakes(&lanes->down.words->reader_sleeps)) ring_bell(lanes);
    }
}

bool lanes_read(struct client *c, size_t most) {
    struct lane *up = &c->lanes->up;
    uint32_t held = lane_held(up);
    if (held == 0) return false;
    size_t count = held < most ? held : most;
    uint8_t *at = lane_is_broken(held, up) ? NULL : bytes_room(&c->in, count);
    if (!at) {
        client_end(c, lane_is_broken(held, up) ? END_BROKEN : END_NO_MEMORY);
        return false;
    }
    c->in.end += lane_take(up, at, count, held);
    if (lane_wakes(&up->words->writer_sleeps)) ring_bell(c->lanes);
    client_activate(c);
    return true;
}

/* Puts the front of what is held into the lane, as far as there is room. How many bytes. */
static uint32_t put_front(struct client *c, uint32_t room) {
    struct iovec pieces[PIECES];
    unsigned count = out_front(&c->out, pieces, PIECES);
    uint32_t put = 0;
    for (unsigned k = 0; k < count && put < room; k++) {
        uint32_t step = pieces[k].iov_len < room - put ? (uint32_t)pieces[k].iov_len : room - put;
        lane_put(&c->lanes->down, put, pieces[k].iov_base, step);
        put += step;
    }
    lane_tell(&c->lanes->down, put);
    out_drop(&c->out, put);
    return put;
}

bool lanes_write(struct client *c) {
    struct lane *down = &c->lanes->down;
    uint32_t room = lane_room(down);
    if (lane_is_broken(room, down)) {
        client_end(c, END_BROKEN);
        return true;
    }
    while (room > 0 && out_held(&c->out) > 0) room -= put_front(c, room);
    ring_later(c);
    if (out_held(&c->out) > 0) return false;
    out_shrink(&c->out, client_kept(c));
    return true;
}

/* ---- looking ---- */

static bool is_readable(const struct client *c) {
    return !c->hung && bytes_held(&c->in) < READ_BELOW && lane_held(&c->lanes->up) > 0;
}

static bool is_writable(const struct client *c) { return c->full && lane_room(&c->lanes->down) >= ROOM_FROM; }

bool lanes_have_work(const struct client *c) { return c->end == END_NOT && (is_readable(c) || is_writable(c)); }

/* Has it ring. Whether it was to do so in time. */
static bool is_asleep(struct client *c) {
    struct lanes *lanes = c->lanes;
    lane_sleep(&lanes->up.words->reader_sleeps);
    if (c->full) lane_sleep(&lanes->down.words->writer_sleeps);
    if (lanes_have_work(c)) return false;
    lanes_cool(c);
    return true;
}

bool lanes_look(void) {
    bool found = false;
    for (unsigned k = hot.count; k-- > 0;) {
        struct client *c = hot.at[k];
        if (!lanes_have_work(c)) {
            if (++c->lanes->idle_looks >= IDLE_LOOKS) is_asleep(c);
            continue;
        }
        c->lanes->idle_looks = 0;
        if (is_writable(c)) c->full = false;
        if (is_readable(c)) lanes_read(c, MOST_IN - bytes_held(&c->in));
        client_activate(c);
        found = true;
    }
    return found;
}

bool lanes_sleep(void) {
    bool all = true;
    for (unsigned k = hot.count; k-- > 0;) all = is_asleep(hot.at[k]) && all;
    return all;
}
