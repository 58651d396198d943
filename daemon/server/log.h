/* Log lines on standard error, each with its level: `cpgringd: warning: text`.
 * Lines above the level that was asked for are left out. Used by all of the daemon. */
#ifndef CPGRINGD_LOG_H
#define CPGRINGD_LOG_H
#include <stdbool.h>

enum level { LOG_ERROR, LOG_WARNING, LOG_NOTICE, LOG_INFO, LOG_DEBUG };

/* The level of that name. false: there is none. */
bool log_level(const char *name, enum level *level);
void log_up_to(enum level level);
void log_line(enum level level, const char *format, ...) __attribute__((format(printf, 2, 3)));
#endif
