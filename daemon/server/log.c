/* Log lines on standard error; see log.h.
 * A line is written by one call, so that lines of several processes do not mix.
 * What can't be written at once is dropped, so that a reader who stopped does not stop the daemon; the next line says so. */
#include "log.h"
#include <poll.h>
#include <stdarg.h>
#include <stdio.h>
#include <string.h>
#include <unistd.h>

static const char *const level_names[] = {"error", "warning", "notice", "info", "debug"};
static enum level most = LOG_NOTICE;
static unsigned dropped;

bool log_level(const char *name, enum level *level) {
    for (unsigned k = 0; k < sizeof level_names / sizeof *level_names; k++)
        if (!strcmp(name, level_names[k])) {
            *level = (enum level)k;
            return true;
        }
    return false;
}

void log_up_to(enum level level) { most = level; }

/* A pipe that can be written has room for a whole line. */
static bool can_write(void) {
    struct pollfd p = {STDERR_FILENO, POLLOUT, 0};
    return poll(&p, 1, 0) == 1 && p.revents & POLLOUT;
}

void log_line(enum level level, const char *format, ...) {
    char line[1024];
    va_list rest;
    if (level > most) return;
    if (!can_write()) {
        dropped++;
        return;
    }
    int head = snprintf(line, sizeof line, "cpgringd: %s: ", level_names[level]);
    if (dropped) head += snprintf(line + head, sizeof line - (size_t)head, "(%u lines before this were dropped) ", dropped);
    va_start(rest, format);
    int text = vsnprintf(line + head, sizeof line - (size_t)head, format, rest);
    va_end(rest);
    if (text < 0) return;
    size_t length = (size_t)head + (size_t)text;
    if (length > sizeof line - 2) length = sizeof line - 2;
    line[length++] = '\n';
    dropped = write(STDERR_FILENO, line, length) < 0 ? dropped + 1 : 0;
}
