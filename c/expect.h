/* Numbers and bytes compared with what they have to be: the tests' own, in C and in C++. */
#ifndef CPGRING_TEST_EXPECT_H
#define CPGRING_TEST_EXPECT_H
#include <stdint.h>
#include <stdio.h>
#include <string.h>

static unsigned compared, differing;

/* compares a number with the one that it has to be */
static void is_number(const char *what, unsigned long long found, unsigned long long wanted, const char *file, int line) {
    compared++;
    if (found != wanted) {
        differing++;
        fprintf(stderr, "%s:%d: %s is %llu, not %llu\n", file, line, what, found, wanted);
    }
}

/* compares bytes with a text */
static void is_text(const uint8_t *found, size_t len, const char *wanted, const char *file, int line) {
    compared++;
    if (len != strlen(wanted) || memcmp(found, wanted, len) != 0) {
        differing++;
        fprintf(stderr, "%s:%d: \"%.*s\" is not \"%s\"\n", file, line, (int)len, (const char *)found, wanted);
    }
}

#define IS(found, wanted) is_number(#found, (found), (wanted), __FILE__, __LINE__)
#define TEXT(found, len, wanted) is_text((found), (len), (wanted), __FILE__, __LINE__)
#define BYTES(text) (const uint8_t *)(text), sizeof(text) - 1
#endif
