/* scale SHEET: runs the ranges of standard input, a line FROM UPTO each as `sheet split` prints them, and prints the trials of each. */
#include <string.h>

#include "common.h"
#include "planner.h"

#define LIST_BYTES (12u << 20)

static struct file sheet;
static uint8_t list[LIST_BYTES];

static void fail(const char *what)
{
    fprintf(stderr, "scale: %s\n", what);
    exit(1);
}

/* The path of a word: start, end, or values joined by full stops. */
static size_t path(char *word, uint8_t *values)
{
    if (!strcmp(word, "start")) {
        return 0;
    }
    if (!strcmp(word, "end")) {
        values[0] = 255;
        return 1;
    }
    size_t length = 0;
    for (char *value = strtok(word, "."); value && length < 12; value = strtok(NULL, ".")) {
        values[length++] = (uint8_t)atoi(value);
    }
    return length;
}

int main(int argc, char **argv)
{
    if (argc != 2) {
        fail("takes a sheet");
    }
    read_file(&sheet, argv[1]);
    char from_word[64], upto_word[64];
    uint8_t from[12], upto[12], answer[PLANNER_PART_BYTES];
    while (scanf("%63s %63s", from_word, upto_word) == 2) {
        size_t from_length = path(from_word, from), upto_length = path(upto_word, upto);
        if (planner_run_part(sheet.bytes, sheet.length, sheet.bytes, 0, sheet.bytes, 0, from, from_length, upto, upto_length, UINT32_MAX,
                             list, sizeof list, answer, sizeof answer)) {
            fail("refused");
        }
        if (number(answer, 0) != PLANNER_FINISHED) {
            fail("a range isn't finished");
        }
        printf("%u\n", number(answer, 2));
    }
    return 0;
}
