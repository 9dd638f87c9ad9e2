/* put and fetch of the longest table beside a plain memcpy of its bytes, by turns in one run. */
#include <stdio.h>
#include <string.h>
#include <time.h>

#include "planner.h"

#define TABLE_BYTES 2048
#define CALLS 20000
#define ROUNDS 60

static uint8_t store[PLANNER_STORE_BYTES], table[TABLE_BYTES], room[TABLE_BYTES], answer[PLANNER_ANSWER_BYTES];

/* Called through a pointer that the compiler can't see through, as the library is. */
static void *(*volatile copy)(void *, const void *, size_t) = memcpy;

static void by_memcpy(void) {
    copy(room, table, TABLE_BYTES);
}

static void by_put(void) {
    planner_store_put(store, sizeof store, 3, 3, table, sizeof table, answer, sizeof answer);
}

static void by_fetch(void) {
    planner_store_fetch(store, sizeof store, 3, 3, room, sizeof room, answer, sizeof answer);
}

static double nanoseconds(void) {
    struct timespec now;
    clock_gettime(CLOCK_MONOTONIC, &now);
    return 1e9 * (double)now.tv_sec + (double)now.tv_nsec;
}

/* The time of a call, in nanoseconds. */
static double once(void (*call)(void)) {
    double start = nanoseconds();
    for (int i = 0; i < CALLS; i++)
        call();
    return (nanoseconds() - start) / CALLS;
}

int main(void) {
    static void (*const calls[])(void) = {by_memcpy, by_put, by_fetch};
    static const char *const names[] = {"memcpy", "put", "fetch"};
    double best[3] = {1e9, 1e9, 1e9};
    for (uint8_t hall = 0; hall < 4; hall++)
        planner_store_put(store, sizeof store, 3, hall, table, sizeof table, answer, sizeof answer);
    for (int round = 0; round < ROUNDS; round++)
        for (int i = 0; i < 3; i++) {
            double time = once(calls[i]);
            if (time < best[i])
                best[i] = time;
        }
    for (int i = 0; i < 3; i++)
        printf("%-8s %6.1f ns %6.2f times memcpy\n", names[i], best[i], best[i] / best[0]);
    return 0;
}
