/* block SHEET TYPED FIRST COUNT ROUNDS: what a block of alike windows costs (paper 02, #111). TYPED is the same sheet with
 * the trades of the block's neighbours typed as exchanges. Prints three numbers of trials, of the run without exchanges,
 * with the block (COUNT 0: none) and of the typed sheet, then the best time of each call, in seconds, of so many rounds by
 * turns. */
#include "common.h"
#include "planner.h"

enum { REPEAT = 50 };

/* The calls: runs, runs without a trial, questions; of each the sheet alone, with the block, typed. The last six are
 * short, so each is made REPEAT times. */
enum { ALONE, BLOCK, TYPED, KINDS, CALLS = 3 * KINDS };

static struct file sheet, typed;
static uint8_t block[2], list[12 * PLANS], answer[PLANNER_LENT_ANSWER_BYTES];

static uint32_t call(int which) {
    const struct file *from = which % KINDS == TYPED ? &typed : &sheet;
    size_t lent = which % KINDS == BLOCK && block[1] ? 2 : 0;
    if (which >= 2 * KINDS)
        return planner_question_lent(from->bytes, from->length, block, 0, block, lent);
    return planner_run_lent(from->bytes, from->length, block, 0, block, lent, which < KINDS ? NODE_LIMIT : 0, list,
                            (size_t)PLANS * sheet.bytes[0], answer, sizeof answer);
}

int main(int count, char **words) {
    if (count != 6)
        return 2;
    read_file(&sheet, words[1]);
    read_file(&typed, words[2]);
    block[0] = (uint8_t)atoi(words[3]);
    block[1] = (uint8_t)atoi(words[4]);
    double best[CALLS];
    uint32_t made[CALLS];
    for (int round = 0; round < atoi(words[5]); round++)
        for (int which = 0; which < CALLS; which++) {
            double took = timed(call, which, which < KINDS ? 1 : REPEAT);
            best[which] = round == 0 || took < best[which] ? took : best[which];
            made[which] = number(answer, 2);
        }
    printf("%u %u %u", made[ALONE], made[BLOCK], made[TYPED]);
    print_times(best, CALLS);
    return 0;
}
