/* stack: how much of the stack each exported function takes below its caller, at most, on the sheets that go deepest.
 * A thread's stack is painted, the call is made on it, and the lowest byte that lost its paint is looked for. Each call
 * is made in a process of its own, so that the C library's functions are bound in it, and so is the one that has to come
 * before it. */
#include <pthread.h>
#include <stdio.h>
#include <stdlib.h>
#include <string.h>
#include <sys/mman.h>
#include <sys/wait.h>
#include <unistd.h>

#include "planner.h"

enum { STACK = 1 << 20, PAINT = 0xa5, WINDOWS = 12, DUTIES = 16, MOST_WORDS = 8192 };

struct sheet {
    uint8_t bytes[2 * MOST_WORDS];
    size_t length;
};

static struct sheet bare, exchanged;
static uint8_t table[PLANNER_TABLE_BYTES], list[WINDOWS * PLANNER_SEAT_PLANS];
static uint8_t out[2 * sizeof list + PLANNER_REPORT_ROOM];
static uint8_t answer[PLANNER_PART_BYTES], whole[PLANNER_JOIN_BYTES];
static const uint8_t pairs[2] = {0, 1}, block[2] = {10, 2};

/* What a call leaves for another, seen from every process. */
static struct {
    uint8_t desk[PLANNER_DESK_BYTES], store[PLANNER_STORE_BYTES], columns[8 + sizeof list], head[PLANNER_PART_BYTES];
} *kept;

static void add(struct sheet *sheet, unsigned word) {
    sheet->bytes[sheet->length++] = word & 255;
    sheet->bytes[sheet->length++] = word >> 8;
}

/* One of two rules of a window with the next: a duty below 15 has rows with the next one's low duties, or the high
 * ones. */
static void add_rule(struct sheet *sheet, unsigned window, unsigned from) {
    unsigned words[] = {2, 15 * 8 + DUTIES, window, window + 1};
    for (int i = 0; i < 4; i++)
        add(sheet, words[i]);
    for (unsigned duty = 0; duty < DUTIES; duty++)
        for (unsigned next = duty < 15 ? from : 0; next < (duty < 15 ? from + 8 : DUTIES); next++) {
            add(sheet, duty);
            add(sheet, next);
        }
}

/* Every duty of the first windows but the last is tried and dead at once; the exchanges trade the last two windows. */
static void deepest(struct sheet *sheet, unsigned ruled, unsigned exchanges) {
    unsigned third = 16 + 2 * WINDOWS + 2 * ruled * 2 * (4 + 2 * (15 * 8 + DUTIES));
    unsigned header[] = {WINDOWS, DUTIES, 2 * ruled, exchanges, 16, 16 + 2 * WINDOWS, third,
                         third + 2 * exchanges * WINDOWS * DUTIES};
    for (int i = 0; i < 8; i++)
        add(sheet, header[i]);
    for (int i = 0; i < WINDOWS; i++)
        add(sheet, 0xffff);
    for (unsigned rule = 0; rule < 2 * ruled; rule++)
        add_rule(sheet, rule / 2, rule % 2 * 8);
    for (unsigned pair = 0; pair < exchanges * WINDOWS * DUTIES; pair++) {
        unsigned number = pair % (WINDOWS * DUTIES), window = number / DUTIES;
        add(sheet, window == 10 ? number + DUTIES : window == 11 ? number - DUTIES : number);
    }
}

#define SHEET(s) s.bytes, s.length
#define LENT SHEET(exchanged), pairs, 2, block, 2
#define ANSWER answer, PLANNER_ANSWER_BYTES
#define DESK kept->desk, PLANNER_DESK_BYTES
#define STORE kept->store, PLANNER_STORE_BYTES
#define COLUMNS kept->columns, sizeof kept->columns
#define OUT out, sizeof out

static uint32_t question(void) { return planner_question(SHEET(exchanged)); }
static uint32_t question_lent(void) { return planner_question_lent(LENT); }
static uint32_t run(void) { return planner_run(SHEET(exchanged), 1000000, list, sizeof list, ANSWER); }
static uint32_t run_bare(void) { return planner_run(SHEET(bare), 1000000, list, sizeof list, ANSWER); }
static uint32_t run_lent(void) {
    return planner_run_lent(LENT, 1000000, list, sizeof list, answer, PLANNER_LENT_ANSWER_BYTES);
}
static uint32_t run_part(void) {
    static const uint8_t start[1], end[1] = {255};
    return planner_run_part(LENT, start, 0, end, 1, 1000000, list, sizeof list, kept->head, PLANNER_PART_BYTES);
}
static uint32_t join(void) {
    return planner_join(kept->head, PLANNER_PART_BYTES, whole, PLANNER_JOIN_BYTES);
}
static uint32_t at_least(void) { return planner_at_least(LENT, 5000, 1000000, ANSWER); }
static uint32_t families(void) { return planner_families(LENT, 1000000, ANSWER); }
static uint32_t closed(void) { return planner_closed(LENT, ANSWER); }
static uint32_t report(void) { return planner_report(SHEET(exchanged), OUT, ANSWER); }
static uint32_t filter(void) {
    static uint8_t sets[12] = {6, 0, 6, 0, 6, 0, 2, 0, 2, 0, 6, 0};
    static const uint8_t index[8] = {0, 1, 2, 3, 4, 2, 5, 0}, equal[8] = {255, 1, 255, 1, 1, 255, 2, 255};
    static const uint8_t not_equal[8] = {2, 255, 1, 255, 255, 2, 255, 1};
    return planner_filter(sets, 12, index, 8, equal, 8, not_equal, 8) > 2;
}
static uint32_t columns(void) { return planner_columns(WINDOWS, list, sizeof list, COLUMNS, ANSWER); }
static uint32_t rows(void) { return planner_rows(COLUMNS, list, sizeof list, ANSWER); }
static uint32_t merge(void) {
    return planner_merge(WINDOWS, pairs, 2, list, WINDOWS, list, WINDOWS, OUT, ANSWER);
}
static uint32_t store_put(void) { return planner_store_put(STORE, 3, 9, table, sizeof table, ANSWER); }
static uint32_t store_fetch(void) { return planner_store_fetch(STORE, 3, 9, OUT, ANSWER); }
static uint32_t store_drop(void) { return planner_store_drop(STORE, 3, 9, ANSWER); }
static uint32_t desk_sit(void) { return planner_desk_sit(DESK, SHEET(exchanged), 1000000, ANSWER); }
static uint32_t desk_turn(void) { return planner_desk_turn(DESK, answer, PLANNER_TURN_BYTES); }
static uint32_t desk_rounds(void) { return planner_desk_rounds(DESK, 1000000, ANSWER); }
static uint32_t desk_look(void) { return planner_desk_look(DESK, 0, answer, PLANNER_LOOK_BYTES); }
static uint32_t desk_leave(void) { return planner_desk_leave(DESK, 0, OUT, ANSWER); }
static uint32_t small_sheet(void) { return planner_small_sheet(500, OUT, ANSWER); }
static uint32_t version(void) { return planner_version() == 0; }

static const struct call {
    const char *name;
    uint32_t (*call)(void), (*before)(void);
} calls[] = {
    {"version", version, 0},
    {"question", question, 0},
    {"filter", filter, 0},
    {"run", run, 0},
    {"run, no exchanges", run_bare, 0},
    {"question_lent", question_lent, 0},
    {"run_lent", run_lent, 0},
    {"run_part", run_part, 0},
    {"join", join, run_part},
    {"at_least", at_least, 0},
    {"families", families, 0},
    {"closed", closed, 0},
    {"report", report, 0},
    {"columns", columns, 0},
    {"rows", rows, columns},
    {"merge", merge, 0},
    {"store_put", store_put, 0},
    {"store_fetch", store_fetch, store_put},
    {"store_drop", store_drop, store_put},
    {"desk_sit", desk_sit, 0},
    {"desk_turn", desk_turn, desk_sit},
    {"desk_look", desk_look, desk_sit},
    {"desk_rounds", desk_rounds, 0},
    {"desk_leave", desk_leave, 0},
    {"small_sheet", small_sheet, 0},
};

static char *top;

/* The call, from a frame whose place is kept. */
static void *measured(void *given) {
    const struct call *call = given;
    top = __builtin_frame_address(0);
    if (call->call() != 0)
        printf("refused: ");
    return 0;
}

static void measure(const struct call *call) {
    static char painted[STACK] __attribute__((aligned(4096)));
    pthread_attr_t attributes;
    pthread_t thread;
    size_t at = 0;
    memset(painted, PAINT, sizeof painted);
    if (pthread_attr_init(&attributes) != 0 || pthread_attr_setstack(&attributes, painted, sizeof painted) != 0
        || pthread_create(&thread, &attributes, measured, (void *)call) != 0)
        exit(1);
    pthread_join(thread, 0);
    while (painted[at] == (char)PAINT)
        at++;
    printf("%-18s %7td\n", call->name, top - (painted + at));
}

/* A process for the call, or for the one before it. */
static void apart(const struct call *call, int is_before) {
    pid_t child = fork();
    if (child == 0) {
        if (is_before)
            call->before();
        else
            measure(call);
        exit(0);
    }
    waitpid(child, 0, 0);
}

int main(void) {
    kept = mmap(0, sizeof *kept, PROT_READ | PROT_WRITE, MAP_SHARED | MAP_ANONYMOUS, -1, 0);
    if (kept == MAP_FAILED)
        return 1;
    deepest(&bare, 11, 0);
    deepest(&exchanged, 9, 16);
    for (size_t i = 0; i < sizeof calls / sizeof calls[0]; i++) {
        if (calls[i].before != 0)
            apart(&calls[i], 1);
        apart(&calls[i], 0);
    }
    return 0;
}
