/* What the programs of the bench share: a sheet read, the time, the numbers of an answer. */
#ifndef COMMON_H
#define COMMON_H

#include <stdint.h>
#include <stdio.h>
#include <stdlib.h>
#include <time.h>

/* A sheet is at most MOST bytes long, and every run has room for PLANS plans and the same allowance. */
enum { MOST = 65536, PLANS = 4096, NODE_LIMIT = 1000000 };

struct file {
    uint8_t bytes[MOST];
    size_t length;
};

static inline void read_file(struct file *file, const char *name) {
    FILE *from = fopen(name, "rb");
    if (!from)
        exit(3);
    file->length = fread(file->bytes, 1, MOST, from);
    fclose(from);
}

/* The processor time so far. */
static inline double seconds(void) {
    struct timespec now;
    clock_gettime(CLOCK_PROCESS_CPUTIME_ID, &now);
    return (double)now.tv_sec + 1e-9 * (double)now.tv_nsec;
}

/* The i-th number of an answer. */
static inline uint32_t number(const uint8_t *answer, int i) {
    const uint8_t *at = answer + 4 * i;
    return at[0] | (uint32_t)at[1] << 8 | (uint32_t)at[2] << 16 | (uint32_t)at[3] << 24;
}

/* The time of a call, made so many times. */
static inline double timed(uint32_t (*call)(int), int which, int repeat) {
    double start = seconds();
    for (int i = 0; i < repeat; i++)
        if (call(which) != 0)
            exit(1);
    return (seconds() - start) / repeat;
}

/* Prints some times, in seconds, and ends the line. */
static inline void print_times(const double *times, int count) {
    for (int i = 0; i < count; i++)
        printf(" %.9f", times[i]);
    printf("\n");
}

#endif
