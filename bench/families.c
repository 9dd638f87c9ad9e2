/* The count of families (paper 02, #104) beside a plain C breadth-first search with binary search: 4,096 plans of twelve
 * windows, with 16 exchanges and with 136, those of a block of five windows after them. Of planner_families the time of the run
 * without exchanges, as planner_run makes it, is taken away. Prints the proved count's time and plain C's over it, with
 * exchanges of windows, which leave few families, and with exchanges of duties in one window each, which leave
 * more. The best of many rounds is taken of each. */
#include <string.h>

#include "common.h"
#include "planner.h"

enum { ROWS = 4096, WIDTH = 12, VALUES = 2, PAIRS = WIDTH * VALUES, OWN = 16, ALL = 136, ROUNDS = 100 };

static uint8_t rows[ROWS * WIDTH], list[ROWS * WIDTH];
static uint16_t tables[ALL][PAIRS];
static const uint8_t none[1], five[2] = {0, 5};

static size_t find(const uint8_t *row) {
    size_t low = 0, high = ROWS;
    while (low < high) {
        size_t mid = low + (high - low) / 2;
        int way = memcmp(rows + mid * WIDTH, row, WIDTH);
        if (way == 0)
            return mid;
        if (way < 0)
            low = mid + 1;
        else
            high = mid;
    }
    return low;
}

static __attribute__((noinline)) size_t plain(size_t exchanges) {
    static uint8_t seen[ROWS];
    static uint16_t queue[ROWS];
    size_t count = 0, head = 0, tail = 0;
    memset(seen, 0, sizeof seen);
    for (size_t i = 0; i < ROWS; i++) {
        if (seen[i])
            continue;
        seen[i] = 1;
        queue[tail++] = i;
        count++;
        while (head < tail) {
            const uint8_t *from = rows + queue[head++] * WIDTH;
            for (size_t k = 0; k < exchanges; k++) {
                uint8_t row[WIDTH];
                for (size_t x = 0; x < WIDTH; x++) {
                    unsigned pair = tables[k][x * VALUES + from[x]];
                    row[pair / VALUES] = pair % VALUES;
                }
                size_t j = find(row);
                if (!seen[j]) {
                    seen[j] = 1;
                    queue[tail++] = j;
                }
            }
        }
    }
    return count;
}

/* Two windows are exchanged, those k % 11 and the next; or the two duties of window k % 4. */
static void exchange(unsigned k, int windows) {
    unsigned a = k % 11, b = k % 4;
    for (unsigned x = 0; x < WIDTH; x++)
        for (unsigned v = 0; v < VALUES; v++)
            tables[k][x * VALUES + v] = windows ? (x == a ? a + 1 : x == a + 1 ? a : x) * VALUES + v
                                                : x * VALUES + (x == b ? 1 - v : v);
}

/* The orderings of the first five windows, each as an exchange after those of the sheet. */
static void orderings(void) {
    unsigned k = OWN;
    for (unsigned code = 0; code < 5 * 5 * 5 * 5 * 5; code++) {
        unsigned to[5], seen = 0;
        for (unsigned i = 0, rest = code; i < 5; i++, rest /= 5)
            seen |= 1u << (to[i] = rest % 5);
        if (seen != 31)
            continue;
        for (unsigned x = 0; x < WIDTH; x++)
            for (unsigned v = 0; v < VALUES; v++)
                tables[k][x * VALUES + v] = (x < 5 ? to[x] : x) * VALUES + v;
        k++;
    }
}

/* Twelve windows of two duties, no rule, so many of the exchanges; its length. */
static size_t make(uint8_t *sheet, unsigned exchanges) {
    const unsigned tables_at = 16 + 2 * WIDTH;
    const unsigned words[8] = {WIDTH, VALUES, 0, exchanges, 16, tables_at, tables_at, tables_at + 2 * exchanges * PAIRS};
    size_t at = 0;
    for (unsigned i = 0; i < 8; i++, at += 2)
        sheet[at] = words[i] % 256, sheet[at + 1] = words[i] / 256;
    for (unsigned x = 0; x < WIDTH; x++, at += 2)
        sheet[at] = 3, sheet[at + 1] = 0;
    for (unsigned k = 0; k < exchanges; k++)
        for (unsigned q = 0; q < PAIRS; q++, at += 2)
            sheet[at] = tables[k][q], sheet[at + 1] = 0;
    return at;
}

static double compare(int windows, size_t exchanges) {
    static uint8_t sheet[1024], bare[64];
    uint8_t answer[PLANNER_ANSWER_BYTES];
    double best = 1e9, run = 1e9, whole = 1e9;
    size_t count = 0;
    for (unsigned k = 0; k < OWN; k++)
        exchange(k, windows);
    size_t length = make(sheet, OWN), bare_length = make(bare, 0);
    for (int round = 0; round < ROUNDS; round++) {
        double start = seconds();
        count = plain(exchanges);
        double middle = seconds();
        planner_run(bare, bare_length, NODE_LIMIT, list, sizeof list, answer, sizeof answer);
        double later = seconds();
        planner_families(sheet, length, none, 0, five, exchanges > OWN ? 2 : 0, NODE_LIMIT, answer, sizeof answer);
        double end = seconds();
        best = middle - start < best ? middle - start : best;
        run = later - middle < run ? later - middle : run;
        whole = end - later < whole ? end - later : whole;
    }
    if (number(answer, 0) != PLANNER_COUNTED || number(answer, 1) != count)
        return -1;
    double proved = whole - run;
    printf("%zu families of 4096 plans by %zu exchanges: %.2f ms, plain C / proved: %.2f\n", count, exchanges, 1e3 * proved,
           best / proved);
    return proved;
}

int main(void) {
    for (unsigned i = 0; i < ROWS; i++)
        for (unsigned x = 0; x < WIDTH; x++)
            rows[i * WIDTH + x] = i >> (WIDTH - 1 - x) & 1;
    orderings();
    int wrong = 0;
    for (int windows = 1; windows >= 0; windows--) {
        double few = compare(windows, OWN), many = compare(windows, ALL);
        wrong |= few < 0 || many < 0;
        printf("136 exchanges / 16: %.1f\n", many / few);
    }
    return wrong;
}
