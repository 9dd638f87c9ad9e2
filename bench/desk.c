/* desk ROUNDS SHEET ..: up to eight halls at one desk (paper 02, #113), each with an allowance of 1,000,000 and room for 4,096 plans, from
 * sitting down to the end of the last run: by turns one by one and by rounds of 1,024 turns, beside their plain runs one after the other.
 * Prints the trials and the turns in all, then the best time of each, in seconds, of so many rounds of measuring. */
#include <string.h>

#include "common.h"
#include "planner.h"

enum { TURNS_AT_ONCE = 1024 };

enum { PLAIN, TURNS, ROUNDS, WAYS };

struct figures {
    uint32_t kind, plans, trials;
};

static struct file sheets[PLANNER_SEATS];
static int count;
static struct figures alone[PLANNER_SEATS];
static uint32_t turns;
static uint8_t desk[PLANNER_DESK_BYTES], list[12 * PLANS], answer[PLANNER_ANSWER_BYTES], seat_answer[PLANNER_TURN_BYTES], look_answer[PLANNER_LOOK_BYTES];

static void done(uint32_t status) {
    if (status != 0)
        exit(1);
}

static void run_plain(void) {
    for (int i = 0; i < count; i++) {
        done(planner_run(sheets[i].bytes, sheets[i].length, NODE_LIMIT, list, (size_t)PLANS * sheets[i].bytes[0], answer,
                         sizeof answer));
        alone[i] = (struct figures){number(answer, 0), number(answer, 1), number(answer, 2)};
    }
}

static void run_at_desk(int way) {
    memset(desk, 0, sizeof desk);
    for (int i = 0; i < count; i++)
        done(planner_desk_sit(desk, sizeof desk, sheets[i].bytes, sheets[i].length, NODE_LIMIT, answer, sizeof answer));
    turns = 0;
    if (way == ROUNDS) {
        do
            done(planner_desk_rounds(desk, sizeof desk, TURNS_AT_ONCE, answer, sizeof answer));
        while (number(answer, 2) != 0);
        return;
    }
    for (;; turns++) {
        done(planner_desk_turn(desk, sizeof desk, seat_answer, sizeof seat_answer));
        if (number(seat_answer, 0) == PLANNER_NONE)
            return;
    }
}

/* Each hall has ended as alone. */
static void compare(void) {
    for (int i = 0; i < count; i++) {
        done(planner_desk_look(desk, sizeof desk, (uint32_t)i, look_answer, sizeof look_answer));
        const struct figures stands = {number(look_answer, 0), number(look_answer, 2), number(look_answer, 3)};
        if (memcmp(&stands, &alone[i], sizeof stands) != 0)
            exit(1);
    }
}

static double timed_way(int way) {
    double start = seconds();
    if (way == PLAIN)
        run_plain();
    else
        run_at_desk(way);
    double took = seconds() - start;
    if (way != PLAIN)
        compare();
    return took;
}

int main(int words, char **word) {
    count = words - 2;
    if (count < 1 || count > PLANNER_SEATS)
        return 2;
    for (int i = 0; i < count; i++)
        read_file(&sheets[i], word[i + 2]);
    double best[WAYS];
    uint32_t most = 0, trials = 0;
    for (int round = 0; round < atoi(word[1]); round++)
        for (int way = 0; way < WAYS; way++) {
            double took = timed_way(way);
            best[way] = round == 0 || took < best[way] ? took : best[way];
            most = turns > most ? turns : most;
        }
    for (int i = 0; i < count; i++)
        trials += alone[i].trials;
    printf("%u %u", trials, most);
    print_times(best, WAYS);
    return 0;
}
