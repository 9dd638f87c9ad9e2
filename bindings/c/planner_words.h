/* planner_words.h - the refusals of planner.h in words. bindings/make-words writes this file. */
#ifndef PLANNER_WORDS_H
#define PLANNER_WORDS_H

#include <stdint.h>

/* What the question with a number asks: a refusal with that number says that it isn't so. NULL for no such number. */
static inline const char *planner_words(uint32_t number) {
    switch (number) {
    case 1: return "the sheet has at least 16 bytes";
    case 2: return "the sheet has 1 to 12 windows";
    case 3: return "the sheet has 1 to 16 duties";
    case 4: return "the sheet has at most 32 rules";
    case 5: return "the sheet has at most 16 exchanges";
    case 6: return "the length that the sheet states is the number of bytes lent";
    case 7: return "the first offset is 16, the second 16 + 2 * windows, the third from the second to the length";
    case 8: return "the window's set has no bit from the number of duties up and is not empty";
    case 9: return "the rule ends by the third offset, and the last one ends there (its item is the number of rules)";
    case 10: return "the rule has 1 to 3 windows and at most 256 rows";
    case 11: return "the rule's windows are on the sheet and strictly ascending";
    case 12: return "the duties of the rule's rows are on the sheet";
    case 13: return "the rule's rows are strictly ascending";
    case 14: return "the length is the third offset plus 2 * exchanges * windows * duties";
    case 15: return "in the exchange each number that is no pair stands for itself, and the pairs are permuted";
    case 16: return "the exchange respects the sheet: the image of every forbidden set contains a forbidden set";
    case 17: return "the filter is lent 1 to 12 sets";
    case 18: return "the filter's lists have one length, at most 192";
    case 19: return "the entry's window is one of the sets', just one of its two values is 255, the other below 16";
    case 20: return "1 to 12 places, whole rows, at most 4096 of them";
    case 21: return "each value of the rows is below 16";
    case 22: return "the room holds what is to be written";
    case 23: return "the store has at least 8 bytes, its offset is 8, its length is its total and 8 + places * plans";
    case 24: return "1 to 12 places, and both lists are whole rows";
    case 25: return "the first list is strictly ascending";
    case 26: return "the second list is strictly ascending";
    case 27: return "the room holds the merged list";
    case 28: return "there are at most 64 pairs, and no half pair";
    case 29: return "the windows of the pairs are on the sheet";
    case 30: return "the pairs do not go round in a circle";
    case 31: return "the course is 0 to 3";
    case 32: return "the course has this hall, or fewer than four";
    case 33: return "the table has at most 2048 bytes";
    case 34: return "the course has this hall";
    case 35: return "the room holds the table";
    case 36: return "the block has no bytes, or two that name 2 to 5 neighbouring windows, the first and how many";
    case 37: return "the desk has a free seat";
    case 38: return "somebody holds the seat, and it is one of the eight";
    case 39: return "the position is that of a small sheet";
    case 40: return "the room has at least 52 bytes";
    case 41: return "the heads of parts are whole heads, at most 65,536";
    case 42: return "each head has a head's shape: kind, paths of at most twelve values, zeros behind them";
    case 43: return "all heads are of one sheet, pairs and block";
    case 44: return "no head is of a full part";
    case 255: return "every lent buffer of a fixed size has that size";
    default: return (const char *)0;
    }
}

/* What the item of a refusal with a number is: a window, a rule, an exchange, an entry, or "" where it is 0. */
static inline const char *planner_item_words(uint32_t number) {
    switch (number) {
    case 8: return "window";
    case 9: return "rule";
    case 10: return "rule";
    case 11: return "rule";
    case 12: return "rule";
    case 13: return "rule";
    case 15: return "exchange";
    case 16: return "exchange";
    case 19: return "entry";
    default: return "";
    }
}

#endif
