/* Who is let in: the uidgid sections of the conf, and of the files of uidgid.d beside it, as Corosync has them.
 * The node reads the texts; names of users and groups that they have are looked up in this machine's name service.
 * A fault is told with its file, line and reason. */
#ifndef CPGRINGD_ADMISSION_H
#define CPGRINGD_ADMISSION_H
#include "options.h"

struct admission {
    char *conf, *names;
    size_t conf_len, names_len;
};

/* Reads and checks the texts. false: a fault, which the log tells. */
bool admission_read(const struct options *options, struct admission *admission);
void admission_free(struct admission *admission);
#endif
