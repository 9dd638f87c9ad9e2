/* Lists the paper's sheet A by planner_run and prints its plans; then with the second window settled first, and with
 * pairs that go round; asks whether it has so many plans, how many families it and a rotation of three
 * windows have and whether their exchanges are closed; then filters by source document 001's nogoods. */
#include <stdio.h>

#include "planner.h"
#include "planner_words.h"

/* Two windows, three duties, one rule (the windows differ), one exchange (the windows change places). */
static const uint8_t sheet_a[64] = {
    2, 0, 3, 0, 1, 0, 1, 0, 16, 0, 20, 0, 52, 0, 64, 0,                             /* header */
    7, 0, 7, 0,                                                                     /* initial sets */
    2, 0, 6, 0, 0, 0, 1, 0,                                                         /* rule: counts, windows */
    0, 0, 1, 0, 0, 0, 2, 0, 1, 0, 0, 0, 1, 0, 2, 0, 2, 0, 0, 0, 2, 0, 1, 0,         /* its rows */
    3, 0, 4, 0, 5, 0, 0, 0, 1, 0, 2, 0,                                             /* exchange */
};

/* Three windows, two duties, no rule; the exchange carries each window on to the next. */
static const uint8_t rotation[34] = {
    3, 0, 2, 0, 0, 0, 1, 0, 16, 0, 22, 0, 22, 0, 34, 0, /* header */
    3, 0, 3, 0, 3, 0,                                   /* initial sets */
    2, 0, 3, 0, 4, 0, 5, 0, 0, 0, 1, 0,                 /* exchange */
};

static uint32_t number(const uint8_t *bytes) {
    return bytes[0] | (uint32_t)bytes[1] << 8 | (uint32_t)bytes[2] << 16 | (uint32_t)bytes[3] << 24;
}

/* Lent where there are no pairs and no block. */
static const uint8_t none[1] = {0};

static const char *const kinds[] = {"", "finished", "spent", "full"};

/* Says a refusal, with what was asked and isn't so; 1 if it is one. */
static int refused(const char *what, uint32_t status) {
    if (status < 256)
        return 0;
    printf("%s: refused %u %u: %s\n", what, PLANNER_NUMBER(status), PLANNER_ITEM(status),
           planner_words(PLANNER_NUMBER(status)));
    return 1;
}

static void list_plans(uint32_t node_limit) {
    uint8_t list[16], answer[PLANNER_ANSWER_BYTES];
    uint32_t status = planner_run(sheet_a, sizeof sheet_a, node_limit, list, sizeof list, answer, sizeof answer);
    if (refused("sheet A", status))
        return;
    uint32_t kind = number(answer), plans = number(answer + 4), trials = number(answer + 8);
    for (uint32_t i = 0; i < plans; i++)
        printf("plan %d %d\n", list[2 * i], list[2 * i + 1]);
    printf("%s %u %u\n", kinds[kind], plans, trials);
}

/* With pairs, "this window before that window", and no block. */
static void list_in_order(const uint8_t *pairs, size_t pairs_len) {
    uint8_t list[16], answer[PLANNER_LENT_ANSWER_BYTES];
    uint32_t status = planner_run_lent(sheet_a, sizeof sheet_a, pairs, pairs_len, none, 0, 1000000, list, sizeof list,
                                       answer, sizeof answer);
    if (refused("pairs", status))
        return;
    uint32_t kind = number(answer), plans = number(answer + 4), trials = number(answer + 8);
    for (uint32_t i = 0; i < plans; i++)
        printf("plan %d %d\n", list[2 * i], list[2 * i + 1]);
    printf("%s %u %u, trials by window %u %u\n", kinds[kind], plans, trials, number(answer + 12), number(answer + 16));
}

/* Are there at least so many plans? */
static void ask(uint32_t plans, uint32_t node_limit) {
    static const char *const words[] = {"", "yes", "no", "spent"};
    uint8_t answer[PLANNER_ANSWER_BYTES];
    uint32_t status = planner_at_least(sheet_a, sizeof sheet_a, none, 0, none, 0, plans, node_limit, answer,
                                       sizeof answer);
    if (refused("sheet A", status))
        return;
    printf("at least %u with %u trials: %s %u %u\n", plans, node_limit, words[number(answer)], number(answer + 4),
           number(answer + 8));
}

/* Whether the exchanges are closed. */
static void ask_closed(const char *name, const uint8_t *sheet, size_t sheet_len) {
    uint8_t answer[PLANNER_ANSWER_BYTES];
    if (refused(name, planner_closed(sheet, sheet_len, none, 0, none, 0, answer, sizeof answer)))
        return;
    if (number(answer) == PLANNER_CLOSED)
        printf("%s: closed\n", name);
    else
        printf("%s: no exchange is %u and then %u\n", name, number(answer + 4), number(answer + 8));
}

/* How many families there are. */
static void count(const char *name, const uint8_t *sheet, size_t sheet_len, uint32_t node_limit) {
    uint8_t answer[PLANNER_ANSWER_BYTES];
    if (refused(name, planner_families(sheet, sheet_len, none, 0, none, 0, node_limit, answer, sizeof answer)))
        return;
    if (number(answer) == PLANNER_COUNTED)
        printf("%s with %u trials: %u families\n", name, node_limit, number(answer + 4));
    else
        printf("%s with %u trials: families -\n", name, node_limit);
}

/* 001's four nogoods, with x1 to x6 as windows 0 to 5. */
static void filter(const char *name, uint8_t x2, uint8_t x5) {
    static const char *const endings[] = {"consistent", "entailed", "failed"};
    static const uint8_t index[8] = {0, 1, 2, 3, 4, 2, 5, 0};
    static const uint8_t equal[8] = {255, 1, 255, 1, 1, 255, 2, 255};
    static const uint8_t not_equal[8] = {2, 255, 1, 255, 255, 2, 255, 1};
    uint8_t sets[12] = {6, 0, x2, 0, 6, 0, 2, 0, x5, 0, 6, 0};
    uint32_t ending = planner_filter(sets, sizeof sets, index, sizeof index, equal, sizeof equal, not_equal,
                                     sizeof not_equal);
    if (refused(name, ending))
        return;
    printf("%s: %s, sets", name, endings[ending]);
    for (int i = 0; i < 12; i += 2)
        printf(" %d", sets[i]);
    printf("\n");
}

int main(void) {
    static const uint8_t pairs[4] = {1, 0, 0, 1};
    list_plans(1000000);
    list_plans(2);
    list_in_order(pairs, 2);
    list_in_order(pairs, sizeof pairs);
    ask(0, 0);
    ask(2, 3);
    ask(2, 2);
    ask(4, 6);
    count("sheet A", sheet_a, sizeof sheet_a, 9);
    count("sheet A", sheet_a, sizeof sheet_a, 8);
    count("rotation", rotation, sizeof rotation, 14);
    ask_closed("sheet A", sheet_a, sizeof sheet_a);
    ask_closed("rotation", rotation, sizeof rotation);
    filter("001", 6, 2);
    filter("001 with x5 in {1, 2}", 6, 6);
    filter("001 with x2 = 1", 2, 2);
    refused("a byte short", planner_question(sheet_a, 63));
    return planner_version() == PLANNER_VERSION ? 0 : 1;
}
