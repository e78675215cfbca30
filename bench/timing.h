/* timing.h - what the programs of the benchmark share: the time, and a file read whole. */
#ifndef TIMING_H
#define TIMING_H
#include <stdint.h>
#include <stdio.h>
#include <time.h>

/* Microseconds since some moment. */
static inline double now(void)
{
    struct timespec t;
    clock_gettime(CLOCK_MONOTONIC, &t);
    return t.tv_sec * 1e6 + t.tv_nsec / 1e3;
}

/* How many bytes of the file were read; 0 where it cannot be opened. */
static inline size_t load(const char *path, uint8_t *to, size_t room)
{
    FILE *file = fopen(path, "rb");
    size_t n = file ? fread(to, 1, room, file) : 0;
    if (file)
        fclose(file);
    return n;
}

#endif
