/* enough SHEET ROUNDS: is there a plan? (paper 02, #101) planner_at_least for one plan beside planner_run with the allowance of that
 * trial and room for 4,096 plans, and beside the run with an allowance of 1,000,000. Prints the trials of the question and of that
 * run and its plans, then the best time of each call, in seconds, of so many rounds by turns. */
#include "common.h"
#include "planner.h"

/* The calls. The first two are short, so each is made so often that a round takes REPEAT_SECONDS or more. */
enum { QUESTION, STOPPED, WHOLE, CALLS };
static const double REPEAT_SECONDS = 0.01;

static struct file sheet;
static uint8_t list[12 * PLANS], answer[PLANNER_ANSWER_BYTES];
static const uint8_t none[1];
static uint32_t trials;

static uint32_t call(int which) {
    if (which == QUESTION)
        return planner_at_least(sheet.bytes, sheet.length, none, 0, none, 0, 1, NODE_LIMIT, answer, sizeof answer);
    return planner_run(sheet.bytes, sheet.length, which == STOPPED ? trials : NODE_LIMIT, list, (size_t)PLANS * sheet.bytes[0],
                       answer, sizeof answer);
}

static double repeated(int which) {
    int made = 0;
    double start = seconds(), took;
    do {
        if (call(which) != 0)
            exit(1);
        made++;
        took = seconds() - start;
    } while (which != WHOLE && took < REPEAT_SECONDS);
    return took / made;
}

int main(int count, char **words) {
    if (count != 3)
        return 2;
    read_file(&sheet, words[1]);
    if (call(QUESTION) != 0)
        return 1;
    trials = number(answer, 2);
    double best[CALLS];
    for (int round = 0; round < atoi(words[2]); round++)
        for (int which = 0; which < CALLS; which++) {
            double took = repeated(which);
            best[which] = round == 0 || took < best[which] ? took : best[which];
            if (which == STOPPED && number(answer, 2) != trials)
                return 1;
        }
    printf("%u %u %u", trials, number(answer, 2), number(answer, 1));
    print_times(best, CALLS);
    return 0;
}
