/* cpgringd: a daemon of closed process groups round the proved node; programs of libcpg connect to it.
 * Its words and texts are read, its nodes and sockets opened, and then the loop goes on until it is told to end.
 * Whatever is wrong with words, texts or sockets is told with a reason, and the exit status is 1. */
#include "admission.h"
#include "control.h"
#include "log.h"
#include "loop.h"
#include "notify.h"
#include "proved.h"
#include <errno.h>
#include <malloc.h>
#include <string.h>
#include <sys/resource.h>
#include <unistd.h>

static struct ring ring;
static struct sockets sockets;
static struct admission admission;

static void raise_descriptors(void) {
    struct rlimit files;
    if (getrlimit(RLIMIT_NOFILE, &files) != 0) return;
    files.rlim_cur = files.rlim_max;
    if (setrlimit(RLIMIT_NOFILE, &files) != 0) log_line(LOG_WARNING, "more file descriptors: %s", strerror(errno));
}

/* A ring's memory is kept for the next one: memory that goes back to the system and comes again costs more than a message's
 * copy. */
static void keep_memory(void) {
    enum { KEPT = 128 << 20, STEP = 1 << 20, APART = 16 << 20 };
    mallopt(M_TRIM_THRESHOLD, KEPT);
    mallopt(M_TOP_PAD, STEP);
    mallopt(M_MMAP_THRESHOLD, APART);
}

static bool open_ring(const struct options *options) {
    cpgring_fault fault = {0, 0};
    ring.conf = admission.conf;
    ring.conf_len = admission.conf_len;
    ring.names = admission.names;
    ring.names_len = admission.names_len;
    uint32_t status = ring_open(&ring, options, &fault);
    if (status == CPGRING_OK) return true;
    log_line(LOG_ERROR, "the ring can't be opened: %s, line %u of text %u", cpgring_refusal_text(status), fault.line, fault.text);
    return false;
}

static bool open_all(const struct options *options) {
    if (!admission_read(options, &admission)) return false;
    if (options->proved) return proved_open(&admission, options) && sockets_open(&sockets, options);
    if (!open_ring(options) || !sockets_open(&sockets, options)) return false;
    control_open(&ring);
    return true;
}

static int serve(const struct options *options, int parent) {
    if (!open_all(options)) return 1;
    if (!options->foreground) notify_parent(parent);
    notify_manager("READY=1\nSTATUS=clients are let in");
    log_line(LOG_NOTICE, "ring %u of %u nodes at %s%s", options->ring, options->nodes, sockets.path[0],
             options->proved ? ", proved to the socket" : "");
    int status = options->proved ? proved_run(&sockets) : loop_run(&ring, &sockets, options);
    notify_manager("STOPPING=1");
    return status;
}

int main(int count, char **words) {
    struct options options;
    enum words read = options_read(count, words, &options);
    if (read != WORDS_GOOD) return read == WORDS_BAD;
    int parent = -1;
    if (!options.foreground && (parent = notify_fork()) < 0) {
        log_line(LOG_ERROR, "fork: %s", strerror(errno));
        return 1;
    }
    keep_memory();
    raise_descriptors();
    if (!loop_block_signals()) return 1;
    int status = serve(&options, parent);
    sockets_close(&sockets);
    if (options.proved) proved_close();
    else ring_close(&ring);
    admission_free(&admission);
    return status;
}
