/* Eight halls at one desk (#113): one makes a million trials, the others are done in their first turns. Prints the order in which they end,
 * by turns one by one; then who leaves and who comes. */
#include <stdio.h>

#include "planner.h"

enum { MOST = 8192, PLANS = 4096 };

struct sheet {
    uint8_t bytes[MOST];
    size_t length;
};

static uint8_t desk[PLANNER_DESK_BYTES], list[12 * PLANS];
static uint8_t answer[PLANNER_ANSWER_BYTES], seat_answer[PLANNER_TURN_BYTES], look_answer[PLANNER_LOOK_BYTES];

static uint32_t number(const uint8_t *bytes) {
    return bytes[0] | (uint32_t)bytes[1] << 8 | (uint32_t)bytes[2] << 16 | (uint32_t)bytes[3] << 24;
}

static void add(struct sheet *sheet, uint32_t word) {
    sheet->bytes[sheet->length++] = word & 255;
    sheet->bytes[sheet->length++] = word >> 8;
}

/* Windows that may have each of so many duties; those from `first` on all differ. */
static struct sheet hall(uint32_t windows, uint32_t duties, uint32_t first) {
    struct sheet sheet = {.length = 0};
    uint32_t others = windows - first, rules = others * (others - 1) / 2;
    uint32_t third = 16 + 2 * windows + rules * (8 + 4 * duties * (duties - 1));
    const uint32_t header[] = {windows, duties, rules, 0, 16, 16 + 2 * windows, third, third};
    for (int i = 0; i < 8; i++)
        add(&sheet, header[i]);
    for (uint32_t i = 0; i < windows; i++)
        add(&sheet, (1u << duties) - 1);
    for (uint32_t i = first; i < windows; i++)
        for (uint32_t j = i + 1; j < windows; j++) {
            const uint32_t rule[] = {2, duties * (duties - 1), i, j};
            for (int k = 0; k < 4; k++)
                add(&sheet, rule[k]);
            for (uint32_t row = 0; row < duties * duties; row++)
                if (row / duties != row % duties) {
                    add(&sheet, row / duties);
                    add(&sheet, row % duties);
                }
        }
    return sheet;
}

static void sit(struct sheet sheet, uint32_t node_limit) {
    uint32_t status = planner_desk_sit(desk, sizeof desk, sheet.bytes, sheet.length, node_limit, answer, sizeof answer);
    if (status != 0)
        printf("refused %u %u\n", PLANNER_NUMBER(status), PLANNER_ITEM(status));
    else
        printf("seat %u, allowance %u\n", number(answer + 4), node_limit);
}

/* How the seat of an answer stands. */
static void say(const uint8_t *stands) {
    static const char *const kinds[] = {"none", "finished", "spent", "full", "goes on"};
    printf("seat %u %s, %u plans, %u trials\n", number(stands + 4), kinds[number(stands)], number(stands + 8), number(stands + 12));
}

/* The same, and the trials of each place. */
static void look(uint32_t seat) {
    planner_desk_look(desk, sizeof desk, seat, look_answer, sizeof look_answer);
    say(look_answer);
    for (int place = 0; place < 12; place++)
        printf("%s%u", place == 0 ? "by place " : " ", number(look_answer + 16 + 4 * place));
    printf("\n");
}

static void leave(uint32_t seat, size_t room) {
    uint32_t status = planner_desk_leave(desk, sizeof desk, seat, list, room, answer, sizeof answer);
    if (status != 0)
        printf("seat %u: refused %u %u\n", seat, PLANNER_NUMBER(status), PLANNER_ITEM(status));
    else
        printf("seat %u left with %u bytes\n", seat, number(answer + 4));
}

/* Turns until no run waits; each ending is printed with the number of its turn. */
static void serve_all(void) {
    for (uint32_t turn = 1;; turn++) {
        planner_desk_turn(desk, sizeof desk, seat_answer, sizeof seat_answer);
        if (number(seat_answer) == PLANNER_NONE) {
            printf("%u turns\n", turn - 1);
            return;
        }
        if (number(seat_answer) != PLANNER_RUNNING) {
            printf("turn %u: ", turn);
            say(seat_answer);
        }
    }
}

int main(void) {
    sit(hall(2, 3, 0), 1000000);
    sit(hall(2, 3, 0), 9);
    sit(hall(12, 7, 4), 1000000);
    sit(hall(2, 3, 0), 8);
    sit(hall(2, 3, 0), 0);
    sit(hall(3, 2, 0), 1000000);
    sit(hall(2, 7, 2), 56);
    sit(hall(1, 16, 1), 1000000);
    sit(hall(2, 3, 0), 1000000);
    serve_all();
    leave(6, 97);
    leave(6, 98);
    leave(6, 98);
    leave(8, sizeof list);
    leave(2, 0);
    sit((struct sheet){.length = 15}, 1000000);
    sit(hall(4, 8, 4), 1000000);
    planner_desk_rounds(desk, sizeof desk, 72, answer, sizeof answer);
    printf("ended %u, go on %u\n", number(answer + 4), number(answer + 8));
    look(2);
    serve_all();
    return 0;
}
