/* Readiness: who started the daemon is told once its sockets are there.
 * A service manager by NOTIFY_SOCKET, as sd_notify(3) does; a shell by the end of the process that it started, which goes
 * on in the background only then. */
#ifndef CPGRINGD_NOTIFY_H
#define CPGRINGD_NOTIFY_H
#include <stdbool.h>

void notify_manager(const char *state);
/* Goes on in a child. Its parent stays in here until the child is ready or over, and ends with its status. The word that
 * notify_parent needs; -1: there was no fork. */
int notify_fork(void);
void notify_parent(int word);
#endif
