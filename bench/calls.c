/* calls CALL SHEET [BATCHES]: makes one call and writes the block lent, the answer and the output, for callgrind to count and for
 * `calls` to compare, or prints the best time per call of so many batches, in microseconds. Built over libplanner.a, and with
 * -DPLAIN over the shared plain C, whose planner_report returns the report's length. */
#include <string.h>

#include "common.h"
#ifdef PLAIN
#include "yardstick-02.h"
#else
#include "planner.h"
#endif

static const double BATCH_SECONDS = 0.001;

static struct file sheet;
static uint8_t out[PLANNER_REPORT_ROOM], answer[PLANNER_ANSWER_BYTES], pairs[22], block[2];
static size_t pairs_len, block_len;

static uint32_t question(void) {
    return planner_question(sheet.bytes, sheet.length);
}

static uint32_t question_lent(void) {
    return planner_question_lent(sheet.bytes, sheet.length, pairs, pairs_len, block, block_len);
}

static uint32_t run(void) {
    return planner_run(sheet.bytes, sheet.length, NODE_LIMIT, out, (size_t)PLANS * sheet.bytes[0], answer, sizeof answer);
}

static uint32_t report(void) {
#ifdef PLAIN
    return planner_report(sheet.bytes, sheet.length, out, sizeof out) == 0;
#else
    uint8_t length_written[PLANNER_ANSWER_BYTES];
    return planner_report(sheet.bytes, sheet.length, out, sizeof out, length_written, sizeof length_written);
#endif
}

static uint32_t families(void) {
    return planner_families(sheet.bytes, sheet.length, pairs, 0, block, 0, NODE_LIMIT, answer, sizeof answer);
}

static const struct call {
    const char *name;
    uint32_t (*make)(void);
} calls[] = {{"question", question}, {"question_lent", question_lent}, {"run", run}, {"report", report}, {"families", families}};

static const struct call *named(const char *name) {
    for (size_t i = 0; i < sizeof calls / sizeof *calls; i++)
        if (strcmp(calls[i].name, name) == 0)
            return &calls[i];
    exit(2);
}

/* The windows settled in reverse. */
static void lend_pairs(void) {
    for (int place = sheet.bytes[0] - 1; place > 0; place--) {
        pairs[pairs_len++] = (uint8_t)place;
        pairs[pairs_len++] = (uint8_t)(place - 1);
    }
}

/* The first of the largest blocks that the sheet accepts, if it accepts one. At least no plan is a call that puts the same
 * questions and isn't counted. */
static void lend_block(void) {
    for (int k = 0; k < 4 * 12; k++) {
        block[0] = (uint8_t)(k % 12);
        block[1] = (uint8_t)(5 - k / 12);
        if (planner_at_least(sheet.bytes, sheet.length, pairs, pairs_len, block, sizeof block, 0, 0, answer, sizeof answer) == 0) {
            block_len = sizeof block;
            return;
        }
    }
}

static double batch(const struct call *call, long made) {
    double start = seconds();
    for (long i = 0; i < made; i++)
        if (call->make() != 0)
            exit(1);
    return seconds() - start;
}

/* As many calls as take BATCH_SECONDS. */
static long whole_batch(const struct call *call) {
    long made = 1;
    while (batch(call, made) < BATCH_SECONDS)
        made *= 2;
    return made;
}

static double best(const struct call *call, int batches) {
    long made = whole_batch(call);
    double least = batch(call, made);
    for (int i = 1; i < batches; i++) {
        double took = batch(call, made);
        least = took < least ? took : least;
    }
    return 1e6 * least / (double)made;
}

int main(int count, char **words) {
    if (count < 3)
        return 2;
    read_file(&sheet, words[2]);
    const struct call *call = named(words[1]);
    lend_pairs();
    lend_block();
    memset(answer, 0, sizeof answer);
    if (count > 3) {
        printf("%.4f\n", best(call, atoi(words[3])));
        return 0;
    }
    if (call->make() != 0)
        return 1;
    fwrite(block, 1, sizeof block, stdout);
    fwrite(answer, 1, sizeof answer, stdout);
    fwrite(out, 1, sizeof out, stdout);
    return 0;
}
