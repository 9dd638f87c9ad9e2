/* One list from two (paper 02, #106) beside a plain C merge with memcmp that puts the same questions: two lists of
 * 4,096 rows of 12 bytes, half of the rows in both. Prints plain C's time over the proved function's, without pairs
 * and with them: 2.0 is twice as fast as plain C. The best of many rounds is taken of each. */
#include <string.h>

#include "common.h"
#include "planner.h"

enum { ROWS = 4096, WIDTH = 12, BYTES = ROWS * WIDTH, ROUNDS = 400 };

static uint8_t first[BYTES], second[BYTES], out[2 * BYTES], expected[2 * BYTES];

static int ascends(const uint8_t *list, size_t length) {
    for (size_t i = WIDTH; i < length; i += WIDTH)
        if (memcmp(list + i - WIDTH, list + i, WIDTH) >= 0)
            return 0;
    return 1;
}

/* The merged list's length; with `to` it is written there. */
static size_t walk(const uint8_t *a, size_t alen, const uint8_t *b, size_t blen, uint8_t *to) {
    size_t i = 0, j = 0, k = 0;
    while (i < alen || j < blen) {
        int way = i == alen ? 1 : j == blen ? -1 : memcmp(a + i, b + j, WIDTH);
        if (to)
            memcpy(to + k, way <= 0 ? a + i : b + j, WIDTH);
        i += way <= 0 ? WIDTH : 0;
        j += way >= 0 ? WIDTH : 0;
        k += WIDTH;
    }
    return k;
}

/* Nothing is written unless all fits. It is counted first only where the room might be short. */
static __attribute__((noinline)) size_t plain(const uint8_t *a, size_t alen, const uint8_t *b, size_t blen, uint8_t *to,
                                              size_t room) {
    if (alen % WIDTH != 0 || blen % WIDTH != 0 || !ascends(a, alen) || !ascends(b, blen))
        return 0;
    if (room < alen + blen && walk(a, alen, b, blen, NULL) > room)
        return 0;
    return walk(a, alen, b, blen, to);
}

/* Rows that ascend, by place or from the last place to the first; every second one is in both lists. */
static void fill(uint8_t *list, unsigned odd, int reversed) {
    for (unsigned row = 0; row < ROWS; row++) {
        unsigned key = row % 2 == 0 ? 2 * row : 2 * row + odd;
        for (unsigned digit = 0; digit < WIDTH; digit++, key /= 16)
            list[row * WIDTH + (reversed ? digit : WIDTH - 1 - digit)] = digit < 4 ? key % 16 : 7;
    }
}

static double proved(const uint8_t *pairs, size_t pairs_len) {
    double best = 1e9;
    uint8_t answer[PLANNER_ANSWER_BYTES];
    for (int round = 0; round < ROUNDS; round++) {
        double start = seconds();
        if (planner_merge(WIDTH, pairs, pairs_len, first, BYTES, second, BYTES, out, sizeof out, answer, sizeof answer))
            exit(1);
        double took = seconds() - start;
        best = took < best ? took : best;
    }
    return best;
}

/* Is the merged list what plain C made, each row read from the last place to the first if reversed? */
static int same(size_t length, int reversed) {
    for (size_t i = 0; i < length; i++)
        if (out[i] != expected[reversed ? i / WIDTH * WIDTH + WIDTH - 1 - i % WIDTH : i])
            return 0;
    return 1;
}

int main(void) {
    static const uint8_t reverse[22] = {11, 10, 10, 9, 9, 8, 8, 7, 7, 6, 6, 5, 5, 4, 4, 3, 3, 2, 2, 1, 1, 0};
    double best = 1e9;
    size_t length = 0;
    fill(first, 0, 0);
    fill(second, 1, 0);
    for (int round = 0; round < ROUNDS; round++) {
        double start = seconds();
        length = plain(first, BYTES, second, BYTES, expected, sizeof expected);
        double took = seconds() - start;
        best = took < best ? took : best;
    }
    double by_place = proved(reverse, 0);
    if (length == 0 || !same(length, 0))
        return 1;
    fill(first, 0, 1);
    fill(second, 1, 1);
    double in_order = proved(reverse, sizeof reverse);
    if (!same(length, 1))
        return 1;
    printf("merge of two lists of 4096 rows of 12, plain C / proved: %.2f; with the places in reverse: %.2f\n",
           best / by_place, best / in_order);
    return 0;
}
