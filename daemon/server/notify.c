/* Readiness; see notify.h.
 * What can't be told is logged, and changes nothing.
 * The fork comes before any node is opened, so that no handle is in two processes. */
#include "notify.h"
#include "log.h"
#include <errno.h>
#include <fcntl.h>
#include <stddef.h>
#include <stdlib.h>
#include <string.h>
#include <sys/socket.h>
#include <sys/un.h>
#include <sys/wait.h>
#include <unistd.h>

void notify_manager(const char *state) {
    const char *path = getenv("NOTIFY_SOCKET");
    struct sockaddr_un at = {.sun_family = AF_UNIX};
    size_t len = path ? strlen(path) : 0;
    if (len == 0) return;
    if (len >= sizeof at.sun_path || (path[0] != '/' && path[0] != '@')) {
        log_line(LOG_WARNING, "NOTIFY_SOCKET is no path");
        return;
    }
    memcpy(at.sun_path, path, len);
    if (path[0] == '@') at.sun_path[0] = 0;
    int fd = socket(AF_UNIX, SOCK_DGRAM | SOCK_CLOEXEC, 0);
    socklen_t whole = (socklen_t)(offsetof(struct sockaddr_un, sun_path) + len);
    if (fd < 0 || sendto(fd, state, strlen(state), MSG_NOSIGNAL, (struct sockaddr *)&at, whole) < 0)
        log_line(LOG_WARNING, "NOTIFY_SOCKET: %s", strerror(errno));
    if (fd >= 0) close(fd);
}

static void wait_for_child(int from, pid_t child) {
    char byte;
    int status;
    ssize_t got;
    while ((got = read(from, &byte, 1)) < 0 && errno == EINTR) {}
    if (got == 1) _exit(0);
    while (waitpid(child, &status, 0) < 0 && errno == EINTR) {}
    _exit(WIFEXITED(status) ? WEXITSTATUS(status) : 1);
}

int notify_fork(void) {
    int ends[2];
    if (pipe2(ends, O_CLOEXEC) != 0) return -1;
    pid_t child = fork();
    if (child > 0) {
        close(ends[1]);
        wait_for_child(ends[0], child);
    }
    close(ends[0]);
    if (child < 0) {
        close(ends[1]);
        return -1;
    }
    setsid();
    return ends[1];
}

void notify_parent(int word) {
    if (word < 0) return;
    int null = open("/dev/null", O_RDWR | O_CLOEXEC);
    if (write(word, "", 1) != 1) log_line(LOG_WARNING, "who started the daemon is gone");
    close(word);
    if (null < 0) return;
    dup2(null, STDIN_FILENO);
    dup2(null, STDOUT_FILENO);
    close(null);
}
