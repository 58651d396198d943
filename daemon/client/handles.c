/* Handles: a table of instances, each used by any number of threads, and gone with its last user.
 * A handle's number is never used again while it fits into 32 bits, so a stale one is told from a new one.
 * Here are the calls that open and close a handle, and those that only look at one. */
#include "instance.h"
#include <errno.h>
#include <poll.h>
#include <stdio.h>
#include <stdlib.h>
#include <string.h>
#include <sys/epoll.h>
#include <sys/eventfd.h>
#include <sys/socket.h>
#include <sys/un.h>
#include <time.h>
#include <unistd.h>

pthread_mutex_t table_lock = PTHREAD_MUTEX_INITIALIZER;
static struct instance *table[MOST_HANDLES];
static uint32_t serial[MOST_HANDLES];

enum { FLUSH_MS = 1000 };

struct instance *instance_get(cpg_handle_t handle) {
    uint32_t k = (uint32_t)handle;
    struct instance *i = NULL;
    pthread_mutex_lock(&table_lock);
    if (k < MOST_HANDLES && table[k] && serial[k] == handle >> 32) {
        i = table[k];
        i->uses++;
    }
    pthread_mutex_unlock(&table_lock);
    return i;
}

static void close_one(int fd) {
    if (fd >= 0) close(fd);
}

static void instance_free(struct instance *i) {
    close_one(i->fd);
    close_one(i->poll_fd);
    close_one(i->ready);
    close_one(i->noted);
    close_one(i->bell);
    lanes_close(i);
    pieces_free(i);
    dispatch_free(i);
    pthread_mutex_destroy(&i->sync);
    pthread_mutex_destroy(&i->out);
    pthread_mutex_destroy(&i->in);
    pthread_mutex_destroy(&i->dispatch);
    free(i->read.at);
    free(i->now.at);
    free(i->rest.at);
    free(i->answer);
    free(i);
}

void instance_put(struct instance *i) {
    pthread_mutex_lock(&table_lock);
    bool last = --i->uses == 0;
    pthread_mutex_unlock(&table_lock);
    if (last) instance_free(i);
}

/* Gives the instance a handle. false: there are too many. */
static bool enter(struct instance *i) {
    uint32_t k = 0;
    pthread_mutex_lock(&table_lock);
    while (k < MOST_HANDLES && table[k]) k++;
    if (k < MOST_HANDLES) {
        table[k] = i;
        i->handle = (uint64_t)++serial[k] << 32 | k;
    }
    pthread_mutex_unlock(&table_lock);
    return k < MOST_HANDLES;
}

/* ---- opening ---- */

/* Where the daemon's socket is: CPGRING_SOCKET, else $XDG_RUNTIME_DIR where one is there, else /run. */
static bool find_socket(struct sockaddr_un *at) {
    const char *path = getenv("CPGRING_SOCKET"), *folder = getenv("XDG_RUNTIME_DIR");
    int len;
    if (path && *path) len = snprintf(at->sun_path, sizeof at->sun_path, "%s", path);
    else {
        len = folder && *folder ? snprintf(at->sun_path, sizeof at->sun_path, "%s/cpgringd.sock", folder) : 0;
        if (len <= 0 || (size_t)len >= sizeof at->sun_path || access(at->sun_path, F_OK) != 0)
            len = snprintf(at->sun_path, sizeof at->sun_path, "/run/cpgringd.sock");
    }
    return len > 0 && (size_t)len < sizeof at->sun_path;
}

static cs_error_t open_descriptors(struct instance *i) {
    struct epoll_event e = {.events = EPOLLIN};
    i->fd = socket(AF_UNIX, SOCK_STREAM | SOCK_CLOEXEC, 0);
    i->ready = eventfd(0, EFD_NONBLOCK | EFD_CLOEXEC);
    i->noted = eventfd(0, EFD_NONBLOCK | EFD_CLOEXEC);
    i->poll_fd = epoll_create1(EPOLL_CLOEXEC);
    if (i->fd < 0 || i->ready < 0 || i->noted < 0 || i->poll_fd < 0) return CS_ERR_NO_RESOURCES;
    if (epoll_ctl(i->poll_fd, EPOLL_CTL_ADD, i->fd, &e) != 0 || epoll_ctl(i->poll_fd, EPOLL_CTL_ADD, i->ready, &e) != 0)
        return CS_ERR_NO_RESOURCES;
    return CS_OK;
}

/* Takes the lanes that were given. false: some were, and can't be had. */
static bool take_lanes(struct instance *i) {
    bool given = i->given[0] >= 0 && i->given[1] >= 0;
    i->greeting = false;
    i->bell = i->given[1];
    bool good = given ? lanes_open(i, i->given[0], i->bell) : i->given[0] < 0 && !i->cut_off;
    close_one(i->given[0]);
    i->given[0] = i->given[1] = -1;
    return good;
}

static cs_error_t greet(struct instance *i, bool wants_lanes) {
    struct sockaddr_un at = {.sun_family = AF_UNIX};
    uint32_t hello[2] = {PROTOCOL_VERSION, wants_lanes ? HELLO_LANES : 0}, len = 0;
    uint8_t *answer = NULL;
    cs_error_t status = open_descriptors(i);
    if (status != CS_OK) return status;
    if (!find_socket(&at)) return CS_ERR_LIBRARY;
    struct timeval bound = {(time_t)(i->wait_ms / 1000), (suseconds_t)(i->wait_ms % 1000) * 1000};
    setsockopt(i->fd, SOL_SOCKET, SO_SNDTIMEO, &bound, sizeof bound); /* of connect alone: all else does not wait */
    if (connect(i->fd, (struct sockaddr *)&at, sizeof at) != 0) {
        if (errno == EACCES || errno == EPERM) return CS_ERR_ACCESS;
        return errno == EAGAIN ? CS_ERR_TRY_AGAIN : CS_ERR_LIBRARY;
    }
    i->greeting = wants_lanes;
    status = stream_ask(i, ASK_HELLO, hello, sizeof hello, &answer, &len);
    if (!take_lanes(i)) status = CS_ERR_NO_RESOURCES;
    if (status == CS_OK && len >= sizeof i->hello) memcpy(&i->hello, answer, sizeof i->hello);
    free(answer);
    return status;
}

/* A number of the environment within these bounds; else its default. */
static unsigned number_of(const char *name, long least, long most, unsigned otherwise) {
    const char *word = getenv(name);
    char *end = NULL;
    long number = word ? strtol(word, &end, 10) : 0;
    return word && end != word && number >= least && number <= most ? (unsigned)number : otherwise;
}

static struct instance *instance_new(const cpg_model_v1_data_t *model, void *context) {
    struct instance *i = calloc(1, sizeof *i);
    const char *like = getenv("CPGRING_LIKE_COROSYNC");
    pthread_mutexattr_t recursive;
    if (!i) return NULL;
    i->uses = 1;
    i->fd = i->poll_fd = i->ready = i->noted = i->bell = i->given[0] = i->given[1] = -1;
    i->wait_ms = number_of("CPGRING_WAIT", 1, 86400000, WAIT_MS);
    i->dispatch_spin = spin_up_to(number_of("CPGRING_SPIN", 0, 1000, SPIN_US));
    i->like_corosync = like && !strcmp(like, "1");
    if (model) i->model = *model;
    atomic_init(&i->context, context);
    atomic_init(&i->denied, CS_OK);
    atomic_init(&i->flow, CPG_FLOW_CONTROL_DISABLED);
    pthread_mutexattr_init(&recursive);
    pthread_mutexattr_settype(&recursive, PTHREAD_MUTEX_RECURSIVE);
    pthread_mutex_init(&i->sync, NULL);
    pthread_mutex_init(&i->out, NULL);
    pthread_mutex_init(&i->in, NULL);
    pthread_mutex_init(&i->dispatch, &recursive);
    pthread_mutexattr_destroy(&recursive);
    return i;
}

PUBLIC cs_error_t cpg_model_initialize(cpg_handle_t *handle, cpg_model_t model, cpg_model_data_t *data, void *context) {
    const cpg_model_v1_data_t *given = (const cpg_model_v1_data_t *)(const void *)data;
    if (model != CPG_MODEL_V1 || !handle) return CS_ERR_INVALID_PARAM;
    if (given && given->flags & ~(unsigned)CPG_MODEL_V1_DELIVER_INITIAL_TOTEM_CONF) return CS_ERR_INVALID_PARAM;
    struct instance *i = instance_new(given, context);
    cs_error_t status = i ? greet(i, true) : CS_ERR_NO_MEMORY;
    if (i && status == CS_ERR_NO_RESOURCES) { /* without lanes it takes fewer descriptors */
        instance_free(i);
        i = instance_new(given, context);
        status = i ? greet(i, false) : CS_ERR_NO_MEMORY;
    }
    if (!i) return CS_ERR_NO_MEMORY;
    if (status == CS_OK && !enter(i)) status = CS_ERR_NO_RESOURCES;
    if (status == CS_OK) *handle = i->handle;
    else instance_free(i);
    return status;
}

PUBLIC cs_error_t cpg_initialize(cpg_handle_t *handle, cpg_callbacks_t *callbacks) {
    cpg_model_v1_data_t data = {.model = CPG_MODEL_V1};
    if (callbacks) {
        data.cpg_deliver_fn = callbacks->cpg_deliver_fn;
        data.cpg_confchg_fn = callbacks->cpg_confchg_fn;
    }
    return cpg_model_initialize(handle, CPG_MODEL_V1, (cpg_model_data_t *)(void *)&data, NULL);
}

/* ---- closing ---- */

/* What was begun is sent whole, within a time. */
static void finish_rest(struct instance *i) {
    for (uint64_t end = clock_ms() + FLUSH_MS; i->rest_left && !i->broken && clock_ms() < end;) {
        struct pollfd p = {i->fd, POLLOUT, 0};
        struct timespec step = {0, 1000000};
        bool mine = pthread_mutex_trylock(&i->out) == 0; /* else another thread sends, and may wait for long */
        if (mine) stream_flush(i);
        if (mine) pthread_mutex_unlock(&i->out);
        if (mine && i->rest_left && !i->memory) poll(&p, 1, FLUSH_MS / 10);
        if (!mine || i->memory) nanosleep(&step, NULL);
    }
}

PUBLIC cs_error_t cpg_finalize(cpg_handle_t handle) {
    struct instance *i = instance_get(handle);
    if (!i) return CS_ERR_BAD_HANDLE;
    finish_rest(i);
    pthread_mutex_lock(&table_lock);
    bool mine = !i->closed;
    if (mine) {
        i->closed = true;
        table[(uint32_t)handle] = NULL;
        i->uses--;
    }
    pthread_mutex_unlock(&table_lock);
    if (mine) shutdown(i->fd, SHUT_RDWR); /* wakes who waits in a call */
    instance_put(i);
    return mine ? CS_OK : CS_ERR_BAD_HANDLE;
}

/* ---- calls that look ---- */

PUBLIC cs_error_t cpg_fd_get(cpg_handle_t handle, int *fd) {
    struct instance *i = instance_get(handle);
    if (!i) return CS_ERR_BAD_HANDLE;
    *fd = i->poll_fd;
    instance_put(i);
    return CS_OK;
}

PUBLIC cs_error_t cpg_local_get(cpg_handle_t handle, unsigned int *node) {
    struct instance *i = instance_get(handle);
    if (!i) return CS_ERR_BAD_HANDLE;
    *node = i->hello.node;
    instance_put(i);
    return CS_OK;
}

PUBLIC cs_error_t cpg_context_get(cpg_handle_t handle, void **context) {
    struct instance *i = instance_get(handle);
    if (!i) return CS_ERR_BAD_HANDLE;
    *context = i->context;
    instance_put(i);
    return CS_OK;
}

PUBLIC cs_error_t cpg_context_set(cpg_handle_t handle, void *context) {
    struct instance *i = instance_get(handle);
    if (!i) return CS_ERR_BAD_HANDLE;
    i->context = context;
    instance_put(i);
    return CS_OK;
}

PUBLIC cs_error_t cpg_max_atomic_msgsize_get(cpg_handle_t handle, uint32_t *size) {
    struct instance *i = instance_get(handle);
    if (!i) return CS_ERR_BAD_HANDLE;
    *size = i->hello.most;
    instance_put(i);
    return CS_OK;
}

PUBLIC cs_error_t cpg_flow_control_state_get(cpg_handle_t handle, cpg_flow_control_state_t *state) {
    struct instance *i = instance_get(handle);
    if (!i) return CS_ERR_BAD_HANDLE;
    *state = (cpg_flow_control_state_t)i->flow;
    instance_put(i);
    return CS_OK;
}
