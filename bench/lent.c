/* lent SHEET PAIRS TYPED ROUNDS: what pairs cost (paper 02, #108). TYPED is the sheet of the same hall typed in the
 * order of the pairs. Prints two numbers of trials, of the plain run and of the run with the pairs, then the best time of
 * each call, in seconds, of so many rounds by turns. */
#include "common.h"
#include "planner.h"

enum { REPEAT = 50 };

/* The calls. Those from the fifth on are short, so each is made REPEAT times. */
enum { PLAIN, EMPTY, TYPED, PAIRS, EMPTY_NO_TRIAL, TYPED_NO_TRIAL, PAIRS_NO_TRIAL, QUESTIONS, CALLS };

static struct file sheet, pairs, typed, none;
static uint8_t list[12 * PLANS], answer[PLANNER_LENT_ANSWER_BYTES];

static uint32_t call(int which) {
    size_t room = (size_t)PLANS * sheet.bytes[0];
    const struct file *from = which == TYPED || which == TYPED_NO_TRIAL ? &typed : &sheet;
    const struct file *lent = which == PAIRS || which == PAIRS_NO_TRIAL ? &pairs : &none;
    if (which == PLAIN)
        return planner_run(sheet.bytes, sheet.length, NODE_LIMIT, list, room, answer, PLANNER_ANSWER_BYTES);
    if (which == QUESTIONS)
        return planner_question(sheet.bytes, sheet.length);
    return planner_run_lent(from->bytes, from->length, lent->bytes, lent->length, none.bytes, 0,
                            which < EMPTY_NO_TRIAL ? NODE_LIMIT : 0, list, room, answer, sizeof answer);
}

int main(int count, char **words) {
    if (count != 5)
        return 2;
    read_file(&sheet, words[1]);
    read_file(&pairs, words[2]);
    read_file(&typed, words[3]);
    double best[CALLS];
    uint32_t made[CALLS];
    for (int round = 0; round < atoi(words[4]); round++)
        for (int which = 0; which < CALLS; which++) {
            double took = timed(call, which, which < EMPTY_NO_TRIAL ? 1 : REPEAT);
            best[which] = round == 0 || took < best[which] ? took : best[which];
            made[which] = number(answer, 2);
        }
    if (made[PLAIN] != made[EMPTY] || made[TYPED] != made[PAIRS])
        return 1;
    printf("%u %u", made[PLAIN], made[PAIRS]);
    print_times(best, CALLS);
    return 0;
}
