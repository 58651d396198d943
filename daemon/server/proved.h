/* The loop of `cpgringd --proved`: one node, whose every word to a client is proved from the client's own bytes on.
 * Sockets, clocks and credentials are here; asks, answers, events and the next ring are cpgring_served.h's. */
#ifndef CPGRINGD_PROVED_H
#define CPGRINGD_PROVED_H
#include "admission.h"
#include "sockets.h"

/* Opens the first ring. false: the log says why. */
bool proved_open(const struct admission *admission, const struct options *options);
/* Goes on until a signal ends it. The exit status. */
int proved_run(struct sockets *sockets);
void proved_close(void);
#endif
