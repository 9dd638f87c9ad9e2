/* planner.h - the proved hall planner for C and C++. Link libplanner.a or libplanner.so: `pkg-config --cflags
 * --libs planner` where it was installed. planner_words.h beside this file has the refusals in words.
 *
 * Buffers. Each lent buffer is a pointer and its length in bytes. A pointer is never NULL, not even with
 * length 0: lend the address of any byte, which isn't touched then. A buffer that is written to (one that
 * isn't const) overlaps no other buffer of the call; those that are only read may overlap. No pointer is
 * kept after the call, nothing is allocated, and there is no state between calls.
 *
 * Threads. Calls may be made from several threads at once, as long as no buffer that one call writes to is
 * lent to another at the same time.
 *
 * Stack. The most that a call takes below the caller, on the sheets that go deepest (12 windows of 16 duties, 16
 * exchanges, pairs and a block), in KB of 1,000 bytes, as built by rattle-kit-5b-plain:
 *   planner_report 330, planner_families 307, planner_run_part 205, planner_run, planner_run_lent and
 *   planner_at_least, with pairs and a block or without, 183, planner_desk_turn and planner_desk_rounds 182,
 *   planner_closed 72, planner_question_lent 46, planner_question, planner_desk_sit and planner_small_sheet 41,
 *   planner_join 17, every other call 4 (most of it where the C library's functions are bound at their first call).
 * With less the process ends by a fault at the guard page. A thread of PLANNER_STACK_BYTES is enough for
 * each; some systems give a thread less unless asked (musl: 128 KB).
 *
 * The sheet states a hall: windows (at most 12) that are to have a duty each (of at most 16), rules between them,
 * and exchanges, under which the hall looks the same. Windows, duties, rules and exchanges are numbered from 0. All
 * its numbers are unsigned 16-bit, low byte first:
 *   header     eight numbers: windows n, duties d, rules c, exchanges g; the offsets of the sets (16), of the rules
 *              (16 + 2n) and of the exchanges; the sheet's length in bytes
 *   sets       one number for each window: bit v is 1 if the window may have duty v
 *   rules      each: how many windows a (1 to 3) and how many rows r (at most 256), the a windows, ascending, then
 *              r rows of a duties, ascending. The windows have one of these rows, in every plan
 *   exchanges  each: n * d numbers. Window w with duty v, if w may have v, is the pair w * d + v; the table has the
 *              image of each pair in turn, and a number that is no pair stands for itself
 * Two windows, three duties, a rule that the windows' duties differ, an exchange that trades the windows:
 *   2 3 1 1  16 20 52  64                      header
 *   7 7                                        both windows may have 0, 1 and 2
 *   2 6  0 1   0 1  0 2  1 0  1 2  2 0  2 1    two windows, six rows: windows 0 and 1, the rows
 *   3 4 5 0 1 2                                pair 0, window 0 with duty 0, goes to pair 3, window 1 with duty 0
 * A plan is n bytes, the duty of each window. Listed are the plans that no exchange makes of one that reads earlier:
 * here 0 1, 0 2 and 1 2. A trial is one duty tried at one window after those before it; node_limit is how many a run
 * may make. */
#ifndef PLANNER_H
#define PLANNER_H

#include <stddef.h>
#include <stdint.h>

#ifdef __cplusplus
extern "C" {
#endif

/* The version of this header, by semantic versioning; planner_version is that of the library. */
#define PLANNER_VERSION_MAJOR 1
#define PLANNER_VERSION_MINOR 0
#define PLANNER_VERSION_PATCH 0
#define PLANNER_VERSION_TEXT "1.0.0"
#define PLANNER_VERSION (PLANNER_VERSION_MAJOR * 65536u + PLANNER_VERSION_MINOR * 256u + PLANNER_VERSION_PATCH)

/* The library's version: major * 65536 + minor * 256 + patch. */
uint32_t planner_version(void);

/* Every other function returns 0, or a refusal: the number of the first question answered "no" and the item (window,
 * rule, exchange or entry) that it speaks of, as number * 256 + item. planner_words.h lists the numbers. Every lent
 * buffer, the answer too, then holds the bytes it came with. Only planner_filter returns 1 and 2 too, which are no
 * refusals: a refusal is 256 or more. */
#define PLANNER_NUMBER(code) ((code) >> 8)
#define PLANNER_ITEM(code) ((code) & 255)

/* The refusal, asked before all others, of a buffer whose size is fixed: the answer, a store or a desk has another
 * size than the call names, or the sets of planner_filter have an odd number of bytes. */
#define PLANNER_WRONG_SIZE (255u * 256u)

/* A stack that is enough for every call, with some to spare for the thread itself. */
#define PLANNER_STACK_BYTES 393216

/* The answer of most calls: three 32-bit numbers, low byte first. Where nothing else is said they are 1, the number
 * that the call is asked for, and 0. */
#define PLANNER_ANSWER_BYTES 12

/* How a run ended: the first number of its answer. */
#define PLANNER_FINISHED 1 /* nothing is left to try */
#define PLANNER_SPENT 2    /* a further trial is due, and the node limit is reached */
#define PLANNER_FULL 3     /* the last trial found a plan that the list has no room for */

/* Puts questions 1 to 16 to a sheet: 0 if it is accepted, or its refusal. */
uint32_t planner_question(const uint8_t *sheet, size_t sheet_len);

/* Lists a sheet's plans, n bytes each, at the front of the list, with at most node_limit trials. The bytes
 * after the listed plans are unchanged. The answer is the ending, the plans listed and the trials made. Refusals: 1 to
 * 16. */
uint32_t planner_run(const uint8_t *sheet, size_t sheet_len, uint32_t node_limit, uint8_t *list,
                     size_t list_len, uint8_t *answer, size_t answer_len);

/* Writes what the lister prints for this standard input (node limit 1,000,000, room for 4,096 plans), a refusal of the
 * sheet included, to the front of out; the bytes after it are unchanged. The answer is 1, the report's length, 0.
 * Refusal: 22 (out holds the report). */
#define PLANNER_REPORT_ROOM 217160 /* no report is longer */
uint32_t planner_report(const uint8_t *input, size_t input_len, uint8_t *out, size_t out_len, uint8_t *answer,
                        size_t answer_len);

/* ---- The filter. */

/* In its lists equal and not_equal: no value here. */
#define PLANNER_ABSENT 255
/* How it ended. */
#define PLANNER_CONSISTENT 0    /* some assignments from the sets left obey the nogoods, and some don't */
#define PLANNER_ENTAILED 1      /* every assignment from the sets left obeys them all, and there is one */
#define PLANNER_FILTER_FAILED 2 /* no assignment from the lent sets obeys them */

/* Filters lent sets of values by a list of nogoods. Each set is a 16-bit number, low byte first, bit v for
 * value v: the values that the window may still have. The nogoods stand in three lists of one length, a byte
 * an entry. Entry i speaks of window index[i], and one of equal[i] and not_equal[i] is PLANNER_ABSENT:
 *   equal[i] = v      adds "window index[i] has value v" to what the entries after it ask;
 *   not_equal[i] = v  says: if all that was added before it holds, window index[i] hasn't value v.
 * So "x1 = 1 and x3 = 2 imply x0 isn't 4" is index 1 3 0, equal 1 2 255, not_equal 255 255 4.
 * A value stays exactly if some assignment from the sets uses it and obeys every nogood; with no such
 * assignment every set becomes empty. Returned is how it ended. Refusals: 17 to 19. */
uint32_t planner_filter(uint8_t *sets, size_t sets_len, const uint8_t *index, size_t index_len,
                        const uint8_t *equal, size_t equal_len, const uint8_t *not_equal,
                        size_t not_equal_len);

/* ---- Windows that open after others, alike windows, trials by window. Beside the sheet a run is lent:
 *   pairs, two bytes each, "this window before that window", at most 64; repeats are harmless, and no bytes are no
 *     pairs. The settling order always takes the lowest-numbered window whose forerunners are all settled;
 *   a block of 2 to 5 neighbouring windows that are alike, two bytes, the first window and how many, or no bytes for
 *     none. All its orderings act as exchanges after the sheet's own. */

/* Puts all questions that such a run puts: 0, or its refusal. 1 to 16 to the sheet; then, with item 0, to the
 * pairs 28 (at most 64, and no half pair), 29 (their windows are below n) and 30 (they don't go round in a circle; a
 * window before itself is one), and to the block 36 (two bytes, 2 to 5 windows, all on the sheet); then 15 and 16 to
 * its orderings, ascending, with items that count on from the sheet's exchanges. */
uint32_t planner_question_lent(const uint8_t *sheet, size_t sheet_len, const uint8_t *pairs, size_t pairs_len,
                               const uint8_t *block, size_t block_len);

/* As planner_run, with the windows settled in the order of the pairs: the trials follow it, and so does the order in
 * which plans read and are listed; each plan is written by window number. Without pairs and block the list and the
 * ending are those of planner_run. The answer has PLANNER_LENT_ANSWER_BYTES bytes: ending, plans, trials, then twelve
 * 32-bit numbers, low byte first, the trials that settle each window, by its number: they add up to the trials, and
 * windows that the sheet hasn't have 0. Refusals as planner_question_lent gives them. */
#define PLANNER_LENT_ANSWER_BYTES 60
uint32_t planner_run_lent(const uint8_t *sheet, size_t sheet_len, const uint8_t *pairs, size_t pairs_len,
                          const uint8_t *block, size_t block_len, uint32_t node_limit, uint8_t *list,
                          size_t list_len, uint8_t *answer, size_t answer_len);

/* Asks whether the run that is lent the same, with room for all its plans, lists at least `plans`, and stops at the
 * plan that answers it; no list is lent. The answer is the kind, the plans found and the trials made. With plans 0 it
 * is yes without a trial. Refusals as planner_question_lent gives them. */
#define PLANNER_YES 1     /* there are: as many plans were found, with the trials up to the last of them */
#define PLANNER_NO 2      /* nothing is left to try, and there are fewer */
#define PLANNER_UNKNOWN 3 /* spent: a further trial is due, and the node limit is reached */
uint32_t planner_at_least(const uint8_t *sheet, size_t sheet_len, const uint8_t *pairs, size_t pairs_len,
                          const uint8_t *block, size_t block_len, uint32_t plans, uint32_t node_limit,
                          uint8_t *answer, size_t answer_len);

/* ---- Families. A family is all solutions that the exchanges, the sheet's own and the block's, join one after
 * another, through unlisted ones too. */

/* The number of families, where the run that is lent the same with room for 4,096 plans is finished, and so is that
 * of the sheet without exchanges and block. The answer is the kind, the families and 0; the dash is PLANNER_DASH, 0,
 * 0. Refusals as planner_question_lent gives them. */
#define PLANNER_COUNTED 1
#define PLANNER_DASH 2 /* one of the two runs isn't finished */
uint32_t planner_families(const uint8_t *sheet, size_t sheet_len, const uint8_t *pairs, size_t pairs_len,
                          const uint8_t *block, size_t block_len, uint32_t node_limit, uint8_t *answer,
                          size_t answer_len);

/* Are the exchanges closed? They are if any two of them (or one twice), one after the other, make one of them or the
 * exchange that moves nothing; a finished run then lists one plan of each family, the one that reads earliest.
 * Exchanges are numbered from 0, the sheet's own first, then the block's orderings. The answer is the kind, then the
 * first two exchanges a and b (by a, then by b) of which a and then b make one that is missing, else 0, 0. Refusals as
 * planner_question_lent gives them. */
#define PLANNER_CLOSED 1
#define PLANNER_PRODUCT_MISSING 2
uint32_t planner_closed(const uint8_t *sheet, size_t sheet_len, const uint8_t *pairs, size_t pairs_len,
                        const uint8_t *block, size_t block_len, uint8_t *answer, size_t answer_len);

/* ---- Plans stored by window: rows to columns and back. The answer is 1, the number of bytes written, 0. */

/* Writes rows of `places` bytes as columns to the front of out: four 16-bit numbers, low byte first (places,
 * plans, offset 8, total length), then place 0 of every plan, place 1 of every plan, and so on. Bytes after
 * them are unchanged. Refusals: 20 (1 to 12 places, whole rows, at most 4,096 of them), 21 (each value is
 * below 16), 22 (out holds the 8 bytes and the rows). */
uint32_t planner_columns(uint32_t places, const uint8_t *rows, size_t rows_len, uint8_t *out, size_t out_len,
                         uint8_t *answer, size_t answer_len);

/* Turns such a store back into rows at the front of out. Refusals: 23 (at least 8 bytes, the offset is 8, the
 * length is both the total and 8 + places * plans), then 20 to 22 as above, of the bytes after the header. */
uint32_t planner_rows(const uint8_t *store, size_t store_len, uint8_t *out, size_t out_len,
                      uint8_t *answer, size_t answer_len);

/* ---- One list from two. */

/* Writes the rows of either list, ascending, each once, to the front of out; bytes after them are unchanged. Rows have
 * `places` bytes, any value, and are compared in the settling order of the pairs (two bytes each, "this place before
 * that place": always the lowest place whose forerunners are all settled), without pairs by place. The answer is 1,
 * then the number of bytes written, its low half and its high half. Refusals: 24 (1 to 12 places, both lists whole
 * rows), 28 (at most 64 pairs and no half pair), 29 (places below `places`), 30 (no circle), 25 and 26 (the first and
 * the second list strictly ascending), 27 (out holds the merged list). */
uint32_t planner_merge(uint32_t places, const uint8_t *pairs, size_t pairs_len, const uint8_t *first, size_t first_len,
                       const uint8_t *second, size_t second_len, uint8_t *out, size_t out_len, uint8_t *answer,
                       size_t answer_len);

/* ---- Tables of exchanges kept by course (0 to 3) and hall (one byte), four halls a course, at most
 * PLANNER_TABLE_BYTES each. A store is PLANNER_STORE_BYTES lent bytes, handed from call to call; all bytes 0: empty.
 * Any bytes are a store. What a course gets back depends only on its own calls. The answer is 1, the bytes written to
 * out (put and drop: 0), 0. */
#define PLANNER_STORE_BYTES 32832
#define PLANNER_TABLE_BYTES 2048

/* Puts a table in place of the one there. Refusals: 31 (the course is 0 to 3), 33 (the table has at most 2,048
 * bytes), 32 (the course has this hall or fewer than four). */
uint32_t planner_store_put(uint8_t *store, size_t store_len, uint32_t course, uint8_t hall,
                           const uint8_t *table, size_t table_len, uint8_t *answer, size_t answer_len);

/* Copies a table to the front of out; the bytes after it are unchanged. With out a sheet's own bytes from its
 * third offset on, questions 14 to 16 are put to the table as to any. Refusals: 31, 34 (the course has this
 * hall), 35 (out holds the table). */
uint32_t planner_store_fetch(const uint8_t *store, size_t store_len, uint32_t course, uint8_t hall,
                             uint8_t *out, size_t out_len, uint8_t *answer, size_t answer_len);

/* Drops a table; its room is used again. Refusals: 31, 34. */
uint32_t planner_store_drop(uint8_t *store, size_t store_len, uint32_t course, uint8_t hall,
                            uint8_t *answer, size_t answer_len);

/* ---- A desk for eight halls. A desk is PLANNER_DESK_BYTES lent bytes, handed from call to call; all bytes 0: empty.
 * Any bytes are a desk. Each of its eight seats, 0 to 7, holds a copy of a hall's sheet, its node limit, a list with
 * room for PLANNER_SEAT_PLANS plans and the run so far, without pairs or block. What happens at one seat changes
 * nothing at another. A hall that stays seated and not ended gets a turn within any eight turns, however others come
 * and go; when it ends, its list, ending and figures, its trials by window too, are those of planner_run_lent without
 * pairs and block, with the same node_limit and that room. */
#define PLANNER_DESK_BYTES 839065
#define PLANNER_SEATS 8
#define PLANNER_SEAT_PLANS 4096

/* How a seat stands: four 32-bit numbers, low byte first: the kind, the seat, its plans and its trials so far. The kind
 * is PLANNER_FINISHED, PLANNER_SPENT or PLANNER_FULL where the run has ended, as of a run, else PLANNER_RUNNING;
 * PLANNER_NONE, and three zeros, where no run is waiting for a turn. A turn answers these PLANNER_TURN_BYTES bytes; a
 * look PLANNER_LOOK_BYTES: these, then twelve 32-bit numbers, the seat's trials by the window that each settles. */
#define PLANNER_TURN_BYTES 16
#define PLANNER_LOOK_BYTES 64
#define PLANNER_NONE 0
#define PLANNER_RUNNING 4

/* Seats a newcomer at the lowest free seat; its run waits for its first turn. The answer is 1, the seat, 0. Refusals:
 * 37 (a seat is free), then 1 to 16 as planner_question gives them. */
uint32_t planner_desk_sit(uint8_t *desk, size_t desk_len, const uint8_t *sheet, size_t sheet_len, uint32_t node_limit,
                          uint8_t *answer, size_t answer_len);

/* Goes round to the next seat after the one last served (at first, from seat 0) whose run hasn't ended and makes 64
 * trials of it, fewer only if it ends; an ending that needs no further trial falls in the same turn. The answer, of
 * PLANNER_TURN_BYTES bytes, says which seat was served and how it stands; with no such seat the desk is left as it is,
 * and the answer is PLANNER_NONE, 0, 0, 0. */
uint32_t planner_desk_turn(uint8_t *desk, size_t desk_len, uint8_t *answer, size_t answer_len);

/* Gives each seat whose run hasn't ended up to `rounds` turns: the desk afterwards is that of so many turns one by
 * one, until each such seat has had them or has ended; but each sheet is prepared once, which takes longer than the
 * trials of a turn. The answer is 1, the seats whose run ended in this call, those whose run goes on (bit s for seat
 * s). */
uint32_t planner_desk_rounds(uint8_t *desk, size_t desk_len, uint32_t rounds, uint8_t *answer, size_t answer_len);

/* How a seat stands, with its trials by window. Refusal: 38 (somebody holds the seat). */
uint32_t planner_desk_look(const uint8_t *desk, size_t desk_len, uint32_t seat, uint8_t *answer, size_t answer_len);

/* Writes the plans listed so far, n bytes each, to the front of out and frees the seat; the bytes after them are
 * unchanged. The answer is 1, the number of bytes written, 0. Refusals: 38 (somebody holds the seat), then 22 (out
 * holds the plans); the hall then stays seated. */
uint32_t planner_desk_leave(uint8_t *desk, size_t desk_len, uint32_t seat, uint8_t *out, size_t out_len,
                            uint8_t *answer, size_t answer_len);

/* ---- Every small sheet: all sheets of two windows and two duties with one rule on both and at most one
 * exchange, by their position from 0. Order: first set 1 to 3, second set 1 to 3, row set 0 to 15 (bits 0 to 3
 * for 00, 01, 10, 11), 144 without an exchange; then in that same order those with one, each with all its
 * acceptable tables ascending. */

/* Writes the small sheet at position k to the front of out; the bytes after it are unchanged. The answer is 1, the
 * number of bytes written, 0. Refusals: 39 (k is a position), then 40 (out has at least 52 bytes). */
uint32_t planner_small_sheet(uint32_t k, uint8_t *out, size_t out_len, uint8_t *answer, size_t answer_len);

/* ---- A run in parts: the trials of one tree between two paths, run apart and joined. A path is any bytes: the values
 * of windows in the settling order. No bytes is before the first trial, the one byte 255 after the last; otherwise a
 * trial comes after a path that is the front of it, or that has the smaller value at the first difference. */

/* As planner_run_lent, for exactly the trials that come after the path `from` and not after `upto`, with a node limit
 * and a list of their own. 0, with the list and the answer written, the part's head; or number * 256 + item as
 * planner_run_lent refuses or, asked first, PLANNER_WRONG_SIZE where the answer hasn't PLANNER_PART_BYTES bytes; list
 * and answer are then as they came. The head, its numbers of 32 bits, low byte first:
 *     0  the kind, the plans, the trials and twelve counts, as in the answer of planner_run_lent
 *    60  the name of the problem, four digests: of the sheet by base 1000003, of the sheet by base 65599, of the pairs
 *        and of the block by base 1000003. The digest by base q of no bytes is 1; with one byte x more, h becomes
 *        (h * q + x + 1) % 2147483647
 *    76  from: how many values, at most twelve, then these, then zeros, 13 bytes. Of a longer path its first twelve,
 *        which mean the same range
 *    89  upto, likewise
 *   102  the last trial made, else from, likewise
 * Parts of one sheet, pairs and block that go on from each other, whatever their limits and lists, are together the
 * run: a finished part reaches `upto`, a spent one its last trial (go on from there), and a full one has to be run
 * again with more room. */
#define PLANNER_PART_BYTES 115
uint32_t planner_run_part(const uint8_t *sheet, size_t sheet_len, const uint8_t *pairs, size_t pairs_len,
                          const uint8_t *block, size_t block_len, const uint8_t *from, size_t from_len,
                          const uint8_t *upto, size_t upto_len, uint32_t node_limit, uint8_t *list, size_t list_len,
                          uint8_t *answer, size_t answer_len);

/* Joins the heads of parts, one behind the other, in any order, repeats too. Beginning at the empty path, always that
 * head is taken that begins where one stands and reaches furthest, of equals the first; one that reaches nothing after
 * its beginning is never taken. PLANNER_JOINED exactly if some of the heads go, each from where the one before it
 * reaches, from the empty path to the path 255: then only heads that lead there are taken, and their sums are the
 * figures of the run. Else PLANNER_MISSING: no head goes on from where one stands, and no head begins between there
 * and `upto`. The work grows with the square of the number of heads. The answer has PLANNER_JOIN_BYTES bytes, its
 * numbers low byte first:
 *     0  the kind, 32 bits
 *     4  zero
 *     8  the plans, 64 bits
 *    16  the trials, 64 bits
 *    24  twelve counts, 64 bits each
 *   120  the missing range: from where one stands, a path in 13 bytes as a head has it (joined: zeros)
 *   133  upto the nearest beginning after it, else the path 255 (joined: zeros)
 *   146  six zeros
 * 0 is returned where the call has answered. Refusals, item 0: 41 (whole heads, at most 65,536), 42 (each has the
 * shape of a head: kind 1 to 3, lengths up to 12, zeros behind the values), 43 (all bear the problem's name of the
 * first), 44 (none is full); PLANNER_WRONG_SIZE, asked first, where the answer has another size; the answer is then as
 * it came. The digests of a name tell problems apart that differ by accident, not by intent: who has the sheet, the
 * pairs and the block can compare them. */
#define PLANNER_JOIN_BYTES 152
#define PLANNER_JOINED 1
#define PLANNER_MISSING 2
uint32_t planner_join(const uint8_t *heads, size_t heads_len, uint8_t *answer, size_t answer_len);

#ifdef __cplusplus
}
#endif

#endif
