/* Rows to columns and back (planner_columns, planner_rows) beside plain C double loops, for 4,096 plans of 12 places. The
 * loops ask nothing; the planner also puts its questions to every byte. Each is run by turns, and its best time is taken; the
 * ratio is that of the faster of the two loops, columns or rows outside. Exit status 1 if the bytes differ. */
#include <stdio.h>
#include <string.h>
#include <time.h>

#include "planner.h"

enum { PLACES = 12, PLANS = 4096, CELLS = PLACES * PLANS, HEADER = 8, TURNS = 40, CALLS = 50 };

static uint8_t rows[CELLS], back[CELLS], store[HEADER + CELLS], other[HEADER + CELLS];
static uint8_t answer[PLANNER_ANSWER_BYTES];

/* Read anew at each call, so that the loops are compiled for any shape. */
static volatile size_t places = PLACES, plans = PLANS;

static void put_header(size_t n, size_t k) {
    const size_t numbers[4] = {n, k, HEADER, HEADER + n * k};
    for (size_t i = 0; i < 4; i++) {
        other[2 * i] = numbers[i] & 255;
        other[2 * i + 1] = numbers[i] >> 8;
    }
}

static void columns_by_column(void) {
    const size_t n = places, k = plans;
    put_header(n, k);
    for (size_t x = 0; x < n; x++)
        for (size_t i = 0; i < k; i++)
            other[HEADER + x * k + i] = rows[i * n + x];
}

static void columns_by_row(void) {
    const size_t n = places, k = plans;
    put_header(n, k);
    for (size_t i = 0; i < k; i++)
        for (size_t x = 0; x < n; x++)
            other[HEADER + x * k + i] = rows[i * n + x];
}

static void rows_by_row(void) {
    const size_t n = places, k = plans;
    for (size_t i = 0; i < k; i++)
        for (size_t x = 0; x < n; x++)
            back[i * n + x] = store[HEADER + x * k + i];
}

static void rows_by_column(void) {
    const size_t n = places, k = plans;
    for (size_t x = 0; x < n; x++)
        for (size_t i = 0; i < k; i++)
            back[i * n + x] = store[HEADER + x * k + i];
}

static void proved_columns(void) {
    planner_columns((uint32_t)places, rows, sizeof rows, store, sizeof store, answer, sizeof answer);
}

static void proved_rows(void) {
    planner_rows(store, sizeof store, back, sizeof back, answer, sizeof answer);
}

static double seconds(void (*call)(void)) {
    struct timespec start, end;
    clock_gettime(CLOCK_PROCESS_CPUTIME_ID, &start);
    for (int i = 0; i < CALLS; i++)
        call();
    clock_gettime(CLOCK_PROCESS_CPUTIME_ID, &end);
    return ((double)(end.tv_sec - start.tv_sec) + 1e-9 * (double)(end.tv_nsec - start.tv_nsec)) / CALLS;
}

/* The planner's call and the two loops by turns: the best time of each in microseconds, and the ratio. */
static void measure(const char *what, void (*const calls[3])(void)) {
    double best[3] = {1, 1, 1};
    for (int turn = 0; turn < TURNS; turn++)
        for (int i = 0; i < 3; i++) {
            double time = seconds(calls[i]);
            if (time < best[i])
                best[i] = time;
        }
    double loop = best[1] < best[2] ? best[1] : best[2];
    printf("%-8s %d x %d  planner %6.2f us, loop by column %6.2f us, by row %6.2f us, ratio %.2f\n", what, PLANS, PLACES,
           1e6 * best[0], 1e6 * best[1], 1e6 * best[2], loop / best[0]);
}

int main(void) {
    uint32_t state = 1;
    for (size_t i = 0; i < CELLS; i++) {
        state = state * 1664525 + 1013904223;
        rows[i] = state >> 28;
    }
    measure("columns", (void (*const[3])(void)){proved_columns, columns_by_column, columns_by_row});
    int wrong = memcmp(store, other, sizeof store) != 0;
    measure("rows", (void (*const[3])(void)){proved_rows, rows_by_column, rows_by_row});
    memset(back, 255, sizeof back);
    proved_rows();
    wrong += memcmp(back, rows, sizeof rows) != 0;
    printf("%d differ\n", wrong);
    return wrong != 0;
}
