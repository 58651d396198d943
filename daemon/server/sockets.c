/* The sockets of the nodes; see sockets.h.
 * A full table of descriptors is met by a spare one, which is given up to turn the newcomer away.
 * Nothing here waits: sockets are read and written as far as they go. */
#include "sockets.h"
#include "lanes.h"
#include "log.h"
#include "users.h"
#include <errno.h>
#include <fcntl.h>
#include <stdio.h>
#include <stdlib.h>
#include <string.h>
#include <sys/file.h>
#include <sys/socket.h>
#include <sys/stat.h>
#include <sys/un.h>
#include <unistd.h>

enum { BACKLOG = 4096, PIECES = 128 /* of memory, in one write */ };

/* ---- the lock ---- */

/* Takes the lock: a file that is locked, and still the one at its path. */
static bool take_lock(struct sockets *s) {
    for (;;) {
        struct stat held, there;
        s->lock = open(s->lock_path, O_RDWR | O_CREAT | O_CLOEXEC | O_NOFOLLOW, 0600);
        if (s->lock < 0) {
            log_line(LOG_ERROR, "%s: %s", s->lock_path, strerror(errno));
            return false;
        }
        if (flock(s->lock, LOCK_EX | LOCK_NB) != 0) {
            if (errno == EWOULDBLOCK) log_line(LOG_ERROR, "%s: another daemon is using it", s->path[0]);
            else log_line(LOG_ERROR, "%s: %s", s->lock_path, strerror(errno));
            close(s->lock); /* the file is the other's */
            s->lock = -1;
            return false;
        }
        if (fstat(s->lock, &held) == 0 && stat(s->lock_path, &there) == 0 && held.st_ino == there.st_ino && held.st_dev == there.st_dev)
            return true;
        close(s->lock);
    }
}

/* ---- listening ---- */

static bool make_paths(struct sockets *s, const struct options *options) {
    char base[100];
    const char *folder = getenv("XDG_RUNTIME_DIR");
    int len = options->socket ? snprintf(base, sizeof base, "%s", options->socket)
                              : snprintf(base, sizeof base, "%s/cpgringd.sock", folder && *folder ? folder : "/run");
    if (len < 0 || (size_t)len >= sizeof base) {
        log_line(LOG_ERROR, "the socket's path is longer than %zu bytes", sizeof base - 1);
        return false;
    }
    for (unsigned k = 0; k < s->count; k++)
        if (k == 0) snprintf(s->path[k], sizeof s->path[k], "%s", base);
        else snprintf(s->path[k], sizeof s->path[k], "%s.%u", base, k + 1);
    snprintf(s->lock_path, sizeof s->lock_path, "%s.lock", base);
    return true;
}

/* Takes what a daemon left that is gone away; nothing but a socket is ever removed. */
static bool clear_path(const char *path) {
    struct stat there;
    if (lstat(path, &there) != 0) return errno == ENOENT;
    if (!S_ISSOCK(there.st_mode)) {
        errno = EEXIST;
        return false;
    }
    return unlink(path) == 0 || errno == ENOENT;
}

static int listen_at(const char *path, const struct options *options) {
    struct sockaddr_un at = {.sun_family = AF_UNIX};
    if (strlen(path) >= sizeof at.sun_path) return -1;
    memcpy(at.sun_path, path, strlen(path) + 1);
    int fd = socket(AF_UNIX, SOCK_STREAM | SOCK_NONBLOCK | SOCK_CLOEXEC, 0);
    mode_t before = umask(0177);
    bool good = fd >= 0 && clear_path(path) && bind(fd, (struct sockaddr *)&at, sizeof at) == 0;
    umask(before);
    if (good && (options->owner != (uid_t)-1 || options->owner_group != (gid_t)-1))
        good = chown(path, options->owner, options->owner_group) == 0;
    good = good && chmod(path, (mode_t)options->mode) == 0 && listen(fd, BACKLOG) == 0;
    if (good) return fd;
    log_line(LOG_ERROR, "%s: %s", path, strerror(errno));
    if (fd >= 0) close(fd);
    return -1;
}

bool sockets_open(struct sockets *s, const struct options *options) {
    *s = (struct sockets){.lock = -1, .spare = -1, .count = options->nodes};
    for (unsigned k = 0; k < CPGRING_MOST_NODES; k++) s->listener[k] = -1;
    if (!make_paths(s, options) || !take_lock(s)) return false;
    for (unsigned k = 0; k < s->count; k++)
        if ((s->listener[k] = listen_at(s->path[k], options)) < 0) return false;
    s->spare = open("/dev/null", O_RDONLY | O_CLOEXEC);
    return true;
}

void sockets_close(struct sockets *s) {
    for (unsigned k = 0; k < s->count; k++)
        if (s->listener[k] >= 0) {
            if (unlink(s->path[k]) != 0) log_line(LOG_WARNING, "%s: %s", s->path[k], strerror(errno));
            close(s->listener[k]);
            s->listener[k] = -1;
        }
    if (s->lock >= 0) {
        unlink(s->lock_path);
        close(s->lock);
    }
    if (s->spare >= 0) close(s->spare);
    s->lock = s->spare = -1;
}

/* ---- connections ---- */

static bool has_place(const struct user *user, unsigned all) {
    return all < limits.connections && user->connections < limits.user_connections;
}

/* A connection of that peer, where the limits have a place for it. */
static struct client *admit(struct node *node, const struct ucred *peer) {
    unsigned all = 0;
    for (unsigned k = 0; k < user_count_nodes; k++) all += user_nodes[k].count;
    struct user *user = user_get(peer->uid);
    if (!user) return NULL;
    if (!has_place(user, all)) {
        log_line(LOG_INFO, "node %u: process %d of user %u is turned away: %u connections, %u of this user", node->setup.node,
                 (int)peer->pid, (unsigned)peer->uid, all, user->connections);
        user_put(user);
        return NULL;
    }
    if (user->ungreeted >= limits.user_ungreeted) {
        struct client *oldest = user_ungreeted_oldest(user);
        if (oldest) client_end(oldest, END_PUSHED);
    }
    return client_new(node, (uint32_t)peer->pid, peer->uid, peer->gid);
}

/* No descriptor is left: the spare one is given up to turn the newcomer away. false: that does not do, and who comes waits. */
static bool turn_away(struct sockets *s, int listener) {
    if (s->spare < 0) return false;
    close(s->spare);
    int fd = accept4(listener, NULL, NULL, SOCK_CLOEXEC);
    if (fd >= 0) close(fd);
    s->spare = open("/dev/null", O_RDONLY | O_CLOEXEC);
    log_line(LOG_INFO, "no file descriptor is left: a connection is turned away");
    return fd >= 0 && s->spare >= 0;
}

struct client *sockets_accept(struct sockets *s, struct node *node, unsigned index, bool *more) {
    struct ucred peer;
    socklen_t len = sizeof peer;
    int fd = accept4(s->listener[index], NULL, NULL, SOCK_NONBLOCK | SOCK_CLOEXEC);
    *more = true;
    if (fd < 0 && (errno == EMFILE || errno == ENFILE || errno == ENOBUFS || errno == ENOMEM)) {
        /* accept4 says so of an empty queue, too, so this ends */
        *more = turn_away(s, s->listener[index]);
        s->paused = !*more;
        return NULL;
    }
    if (fd < 0) {
        *more = errno == EINTR || errno == ECONNABORTED;
        return NULL;
    }
    struct client *c = getsockopt(fd, SOL_SOCKET, SO_PEERCRED, &peer, &len) == 0 ? admit(node, &peer) : NULL;
    if (!c) {
        close(fd);
        return NULL;
    }
    c->fd = fd;
    c->came = now_us() / 1000;
    return c;
}

/* One read. false: nothing more is there now. */
static bool read_once(struct client *c, size_t most) {
    uint8_t *at = bytes_room(&c->in, most);
    if (!at) {
        client_end(c, END_NO_MEMORY);
        return false;
    }
    ssize_t got = recv(c->fd, at, most, MSG_DONTWAIT);
    if (got > 0) c->in.end += (size_t)got;
    else if (got == 0 || (errno != EAGAIN && errno != EINTR)) client_hang(c);
    client_activate(c);
    return got > 0;
}

/* The bytes by which it rings are dropped. false: the other end is closed. */
static bool drop_rings(const struct client *c) {
    uint8_t rings[4096];
    ssize_t got = recv(c->fd, rings, sizeof rings, MSG_DONTWAIT);
    return got > 0 || (got < 0 && (errno == EAGAIN || errno == EINTR));
}

void client_read(struct client *c) {
    size_t held = bytes_held(&c->in);
    if (c->end != END_NOT || c->hung) return;
    if (c->lanes && !drop_rings(c)) client_read_out(c);
    else if (c->lanes) lanes_heat(c);
    else if (held < READ_BELOW) read_once(c, MOST_IN - held);
}

void client_read_out(struct client *c) {
    bool more = true;
    while (more && c->end == END_NOT && !c->hung && bytes_held(&c->in) < MOST_LEFT)
        more = c->lanes ? lanes_read(c, MOST_IN) : read_once(c, MOST_IN);
    client_hang(c);
    client_activate(c);
}

static size_t length_of(const struct iovec *pieces, size_t count) {
    size_t len = 0;
    for (size_t k = 0; k < count; k++) len += pieces[k].iov_len;
    return len;
}

bool client_write(struct client *c) {
    if (c->wants_lanes && out_held(&c->out) > 0) lanes_give(c);
    if (c->lanes) return lanes_write(c);
    while (out_held(&c->out) > 0) {
        struct iovec pieces[PIECES];
        struct msghdr message = {.msg_iov = pieces, .msg_iovlen = out_front(&c->out, pieces, PIECES)};
        ssize_t put = message.msg_iovlen == 1 ? send(c->fd, pieces[0].iov_base, pieces[0].iov_len, MSG_NOSIGNAL | MSG_DONTWAIT)
                                              : sendmsg(c->fd, &message, MSG_NOSIGNAL | MSG_DONTWAIT);
        if (put < 0 && errno == EINTR) continue;
        if (put < 0 && errno == EAGAIN) return false;
        if (put < 0) { /* the other end is closed: what it left is heard all the same */
            client_read_out(c);
            return true;
        }
        out_drop(&c->out, (size_t)put);
        if ((size_t)put < length_of(pieces, message.msg_iovlen)) return false;
    }
    out_shrink(&c->out, client_kept(c));
    return true;
}
