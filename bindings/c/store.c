/* Two courses keep a table for their hall three in one store; each course's sheet is planned with its own table,
 * and refused with the other's. */
#include <stdio.h>

#include "planner.h"

#define SHEETS 2

/* Two windows and three duties; the exchange, 12 bytes from the third offset on, is still to come. */
static uint8_t sheets[SHEETS][64] = {
    {
        2, 0, 3, 0, 1, 0, 1, 0, 16, 0, 20, 0, 52, 0, 64, 0,                     /* header */
        7, 0, 7, 0,                                                             /* initial sets */
        2, 0, 6, 0, 0, 0, 1, 0,                                                 /* rule: the duties differ */
        0, 0, 1, 0, 0, 0, 2, 0, 1, 0, 0, 0, 1, 0, 2, 0, 2, 0, 0, 0, 2, 0, 1, 0, /* its rows */
    },
    {
        2, 0, 3, 0, 1, 0, 1, 0, 16, 0, 20, 0, 36, 0, 48, 0, /* header */
        7, 0, 7, 0,                                         /* initial sets */
        2, 0, 2, 0, 0, 0, 1, 0,                             /* rule: 0 or 1 at window 0, 2 at window 1 */
        0, 0, 2, 0, 1, 0, 2, 0,                             /* its rows */
    },
};
static const size_t lengths[SHEETS] = {64, 48};

/* Course 0 trades its windows, course 1 the duties 0 and 1 at window 0. */
static const uint8_t tables[SHEETS][12] = {
    {3, 0, 4, 0, 5, 0, 0, 0, 1, 0, 2, 0},
    {1, 0, 0, 0, 2, 0, 3, 0, 4, 0, 5, 0},
};

static uint8_t store[PLANNER_STORE_BYTES];
static uint8_t answer[PLANNER_ANSWER_BYTES];

static uint32_t number(const uint8_t *bytes) {
    return bytes[0] | (uint32_t)bytes[1] << 8 | (uint32_t)bytes[2] << 16 | (uint32_t)bytes[3] << 24;
}

static void say(const char *what, uint32_t status) {
    if (status != 0)
        printf("%s: refused %u %u\n", what, PLANNER_NUMBER(status), PLANNER_ITEM(status));
    else
        printf("%s: %u bytes\n", what, number(answer + 4));
}

/* A sheet's plans with the table that a course keeps for a hall. */
static void plan(int sheet, uint32_t course, uint8_t hall) {
    uint8_t *bytes = sheets[sheet], list[64];
    size_t third = bytes[12] + 256u * bytes[13], room = lengths[sheet] - third;
    uint32_t status = planner_store_fetch(store, sizeof store, course, hall, bytes + third, room, answer, sizeof answer);
    printf("sheet of course %d, table of course %u\n", sheet, course);
    say("  fetch", status);
    if (status != 0)
        return;
    status = planner_question(bytes, lengths[sheet]);
    if (status != 0) {
        say("  sheet", status);
        return;
    }
    planner_run(bytes, lengths[sheet], 1000000, list, sizeof list, answer, sizeof answer);
    for (uint32_t i = 0; i < number(answer + 4); i++)
        printf("  plan %d %d\n", list[2 * i], list[2 * i + 1]);
}

int main(void) {
    for (uint32_t course = 0; course < SHEETS; course++)
        say("put", planner_store_put(store, sizeof store, course, 3, tables[course], 12, answer, sizeof answer));
    for (int sheet = 0; sheet < SHEETS; sheet++) {
        plan(sheet, (uint32_t)sheet, 3);
        plan(sheet, (uint32_t)(1 - sheet), 3);
    }
    plan(0, 2, 3);
    for (uint8_t hall = 4; hall < 8; hall++)
        say("put", planner_store_put(store, sizeof store, 1, hall, tables[1], 12, answer, sizeof answer));
    say("drop", planner_store_drop(store, sizeof store, 1, 4, answer, sizeof answer));
    say("put", planner_store_put(store, sizeof store, 1, 7, tables[1], 12, answer, sizeof answer));
    say("course 4", planner_store_drop(store, sizeof store, 4, 3, answer, sizeof answer));
    return 0;
}
