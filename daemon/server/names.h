/* Names of groups: any 0 to 128 bytes for clients, 1 to 128 bytes from 0x21 to 0x7E for a node.
 * What the node takes stands for itself; other bytes, '%' and a first '!' become %XX; the empty name becomes "%".
 * A name whose code is longer than 128 bytes is kept in a table, and the node has its place there: "!long-7". */
#ifndef CPGRINGD_NAMES_H
#define CPGRINGD_NAMES_H
#include "../protocol.h"
#include <stdbool.h>
#include <stddef.h>

/* More than connections and groups with rules use; a ring ends before its names fill the table (ring.c). */
enum { MOST_LONG_NAMES = 65536 };

struct name {
    uint32_t len;
    uint8_t at[MOST_NAME];
};

enum name_use { NAME_KEEP, NAME_LOOK }; /* keep: a name with no number yet is given one */

/* The node's name for a client's. false: longer than 128 bytes, or a long name with no number and none to be given. */
bool name_code(const uint8_t *plain, size_t len, enum name_use use, struct name *code);

/* The client's name for a node's. */
void name_plain(const struct name *code, struct name *plain);

bool name_same(const struct name *a, const struct name *b);
uint32_t name_hash(const struct name *name);

/* How many long names are kept. */
unsigned name_count(void);
/* Forgets all long names but those that were told by names_mark since names_unmark: the next ring's. */
void names_unmark(void);
void names_mark(const struct name *code);
void names_sweep(void);
#endif
