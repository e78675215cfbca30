/* check.h - what the boundary programs share: counted checks, and slices with guard bytes around them. */
#ifndef CHECK_H
#define CHECK_H

#include "sgml.h"
#include <stdio.h>
#include <stdlib.h>
#include <string.h>

#define FILL 0xA5

static int failed, passed;
/* Guard bytes on either side. With 0 of them a tool that watches memory sees the first byte outside a slice. */
static size_t guard = 16;

static inline void check(int is_right, const char *what)
{
    if (is_right) {
        passed++;
    } else {
        failed++;
        printf("failed: %s\n", what);
    }
}

static inline int all(const uint8_t *b, size_t n, uint8_t x)
{
    size_t i;
    for (i = 0; i < n; i++)
        if (b[i] != x)
            return 0;
    return 1;
}

/* Lengths of names: 0 to 40, and larger ones, some of which are 8 in their lowest bits. */
enum { LENGTHS = 45 };

static inline uint32_t length_at(uint32_t k)
{
    static const uint32_t larger[] = { 0x108, 0x10008, 0x80000008, UINT32_MAX };
    return k <= 40 ? k : larger[k - 41];
}

/* A slice in memory of its own. */
struct slice {
    uint8_t *memory, *bytes;
    size_t before, length;
};

/* Lends `length` bytes, `skew` off a multiple of 16: a copy of a text, or FILL where there is none. */
static inline struct slice lend(const char *text, size_t length, size_t skew)
{
    struct slice s = { NULL, NULL, guard + skew, length };
    size_t size = s.before + length + guard;
    s.memory = malloc(size ? size : 1);
    if (!s.memory)
        abort();
    memset(s.memory, FILL, size);
    s.bytes = s.memory + s.before;
    if (text)
        memcpy(s.bytes, text, length);
    return s;
}

/* Takes the slice back, and says whether what lies around it is as it was. */
static inline int is_whole(struct slice s)
{
    int is_right = all(s.memory, s.before, FILL) && all(s.bytes + s.length, guard, FILL);
    free(s.memory);
    return is_right;
}

/* Prints how many checks passed; the program's exit status. */
static inline int told(void)
{
    printf("%d passed, %d failed\n", passed, failed);
    return failed != 0 || passed == 0;
}

#endif
