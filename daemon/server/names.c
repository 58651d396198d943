/* Names of groups; see names.h.
 * All nodes of a ring are in this process, so one table of long names serves them all.
 * A name's number is its own until it is swept, where a ring ends; in one ring a number never changes its name. */
#include "names.h"
#include <stdio.h>
#include <stdlib.h>
#include <string.h>

struct long_name {
    struct long_name *next; /* of its bucket */
    struct name plain;
    unsigned number; /* its place in `long_names` */
    bool marked;
};

enum { LONG_BUCKETS = 4096 };

static const char LONG[] = "!long-";
static struct long_name *long_names[MOST_LONG_NAMES], *long_buckets[LONG_BUCKETS];
static unsigned count_long, next_number, past; /* a number from `next_number` on may be free; from `past` on none is used */

bool name_same(const struct name *a, const struct name *b) { return a->len == b->len && !memcmp(a->at, b->at, a->len); }

uint32_t name_hash(const struct name *name) {
    uint32_t sum = 2166136261u;
    for (uint32_t k = 0; k < name->len; k++) sum = (sum ^ name->at[k]) * 16777619u;
    return sum;
}

unsigned name_count(void) { return count_long; }

/* ---- long names ---- */

static struct long_name **bucket_of(const struct name *plain) { return &long_buckets[name_hash(plain) % LONG_BUCKETS]; }

static struct long_name *find_plain(const struct name *plain) {
    struct long_name *it = *bucket_of(plain);
    while (it && !name_same(&it->plain, plain)) it = it->next;
    return it;
}

static struct long_name *find_code(const struct name *code) {
    char text[MOST_NAME + 1], *end;
    size_t head = sizeof LONG - 1;
    if (code->len <= head || memcmp(code->at, LONG, head)) return NULL;
    memcpy(text, code->at + head, code->len - head);
    text[code->len - head] = 0;
    unsigned long number = strtoul(text, &end, 10);
    return *end || number >= MOST_LONG_NAMES ? NULL : long_names[number];
}

static struct long_name *add_long(const struct name *plain) {
    while (next_number < MOST_LONG_NAMES && long_names[next_number]) next_number++;
    struct long_name *it = next_number < MOST_LONG_NAMES ? malloc(sizeof *it) : NULL;
    if (!it) return NULL;
    struct long_name **bucket = bucket_of(plain);
    *it = (struct long_name){*bucket, *plain, next_number, true};
    *bucket = long_names[next_number] = it;
    if (next_number >= past) past = next_number + 1;
    count_long++;
    return it;
}

static bool code_long(const struct name *plain, enum name_use use, struct name *code) {
    struct long_name *it = find_plain(plain);
    if (!it && use == NAME_KEEP) it = add_long(plain);
    if (!it) return false;
    code->len = (uint32_t)snprintf((char *)code->at, sizeof code->at, "%s%u", LONG, it->number);
    return true;
}

void names_unmark(void) {
    for (unsigned k = 0; k < past; k++)
        if (long_names[k]) long_names[k]->marked = false;
}

void names_mark(const struct name *code) {
    struct long_name *it = find_code(code);
    if (it) it->marked = true;
}

static void forget(struct long_name *it) {
    struct long_name **at = bucket_of(&it->plain);
    while (*at != it) at = &(*at)->next;
    *at = it->next;
    long_names[it->number] = NULL;
    free(it);
    count_long--;
}

void names_sweep(void) {
    for (unsigned k = 0; k < past; k++)
        if (long_names[k] && !long_names[k]->marked) forget(long_names[k]);
    while (past > 0 && !long_names[past - 1]) past--;
    next_number = 0;
}

/* ---- names as codes ---- */

static bool is_plain(uint8_t byte, size_t at) { return byte >= 0x21 && byte <= 0x7E && byte != '%' && !(at == 0 && byte == '!'); }

bool name_code(const uint8_t *plain, size_t len, enum name_use use, struct name *code) {
    static const char hex[] = "0123456789ABCDEF";
    struct name whole = {0};
    uint32_t n = 0;
    if (len > MOST_NAME) return false;
    if (len == 0) code->at[n++] = '%';
    for (size_t k = 0; k < len; k++) {
        uint32_t step = is_plain(plain[k], k) ? 1 : 3;
        if (n + step > MOST_NAME) {
            memcpy(whole.at, plain, whole.len = (uint32_t)len);
            return code_long(&whole, use, code);
        }
        if (step == 1) code->at[n] = plain[k];
        else {
            code->at[n] = '%';
            code->at[n + 1] = (uint8_t)hex[plain[k] >> 4];
            code->at[n + 2] = (uint8_t)hex[plain[k] & 15];
        }
        n += step;
    }
    code->len = n;
    return true;
}

static int hex_value(uint8_t byte) {
    if (byte >= '0' && byte <= '9') return byte - '0';
    return byte >= 'A' && byte <= 'F' ? byte - 'A' + 10 : -1;
}

void name_plain(const struct name *code, struct name *plain) {
    const struct long_name *it = code->len && code->at[0] == '!' ? find_code(code) : NULL;
    uint32_t n = 0;
    if (it) {
        *plain = it->plain;
        return;
    }
    plain->len = 0;
    if (code->len == 1 && code->at[0] == '%') return;
    for (uint32_t k = 0; k < code->len; k++, n++) {
        bool coded = code->at[k] == '%' && k + 2 < code->len && hex_value(code->at[k + 1]) >= 0 && hex_value(code->at[k + 2]) >= 0;
        plain->at[n] = coded ? (uint8_t)(hex_value(code->at[k + 1]) << 4 | hex_value(code->at[k + 2])) : code->at[k];
        if (coded) k += 2;
    }
    plain->len = n;
}
