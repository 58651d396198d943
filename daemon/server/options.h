/* The options of cpgringd, read from its words.
 * Each has a default; --help prints them all. A wrong word is told with the word, and ends the daemon with status 1.
 * The limits among them are kept apart, in `limits`, for all of the daemon. */
#ifndef CPGRINGD_OPTIONS_H
#define CPGRINGD_OPTIONS_H
#include <stdbool.h>
#include <stddef.h>
#include <stdint.h>
#include <sys/types.h>

struct options {
    const char *conf;   /* NULL: the default, which may be missing */
    const char *socket; /* NULL: the default */
    const char *audit;  /* NULL: none */
    unsigned nodes, lose, repeat;
    uint64_t seed;
    uint32_t ring, places;
    uint64_t ring_bytes;
    unsigned mode, stop_seconds, spin;
    uid_t owner; /* -1: left as it is */
    gid_t owner_group;
    bool foreground, proved;
};

enum words { WORDS_GOOD, WORDS_BAD, WORDS_ANSWERED }; /* answered: --help or --version was printed */

enum words options_read(int count, char **words, struct options *options);
#endif
