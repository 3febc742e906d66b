/*
 * The census: a board of the states of 512 beds, which items change one by one, and for each of four offices the number of beds whose state it
 * counts. Which states an office counts stands in a table of twenty rows that each hospital edits (docs/CENSUS.md).
 *
 * The board is an array of CENSUS_WORDS 32-bit words that the host lends with every call; the census keeps nothing else. Words 0 to 511 are the
 * states of the beds, words 512 to 531 the table last read, five words for each office, 1 counted or 0 not, and words 532 to 535 the offices'
 * counts. Between calls the host may read, copy and save the board, but must not write to it. Calls on one board must not overlap.
 *
 * An item is one word, bed x 8 + state: the value of an event that went through the intake (intake.h). The host hands each item to census_take in
 * the order in which it has received them, those of a drain in their order in the buffer.
 *
 * Every call returns. A refused call returns its number, 19 to 22 below, and changes no word of board or reply. Every call but census_open first
 * looks whether each word of the board is in its range, and is refused with 22 if one is not. On a board that only these calls have written, since
 * a census_open, 22 never comes, and each office's count is what a count of all beds by the table last read would give.
 *
 * `board` points to CENSUS_WORDS words, `rows` to `words` words and `reply` to four, no two of them sharing a word; all are aligned and not NULL,
 * also where they have no words. A call takes less than 4 KB of stack.
 */
#ifndef CENSUS_H
#define CENSUS_H

#include <stddef.h>
#include <stdint.h>

#ifdef __cplusplus
extern "C" {
#endif

#define CENSUS_WORDS 536u
#define CENSUS_BEDS 512u
#define CENSUS_STATES 5u
#define CENSUS_OFFICES 4u
#define CENSUS_TABLE_WORDS 60u

/* What the calls return. 22 is looked at before the others, and by census_take once more after 19. */
enum {
    CENSUS_OK = 0,
    CENSUS_REFUSED_ITEM = 19,   /* census_take: the bed is not 0 to 511, or the state not 0 to 4 */
    CENSUS_REFUSED_TABLE = 20,  /* census_table: not 60 words; a row is missing, repeated or unknown; a third word above 1 */
    CENSUS_REFUSED_OFFICE = 21, /* census_count: an office above 3 */
    CENSUS_REFUSED_BOARD = 22   /* a state above 4, a word of the table above 1 or a count above 512; census_take: the item would take a count out
                                   of 0 to 512; never on a board that only these calls have written */
};

/* The states of a bed. */
enum { CENSUS_FREE = 0, CENSUS_OCCUPIED = 1, CENSUS_AWAITING_CLEANING = 2, CENSUS_BEING_CLEANED = 3, CENSUS_CLOSED = 4 };

/* The value of an item, and its bed and state. */
#define CENSUS_VALUE(bed, state) (8u * (bed) + (state))
#define CENSUS_BED(value) ((value) / 8u)
#define CENSUS_STATE(value) ((value) % 8u)

/* Makes all beds free and counts nothing: CENSUS_WORDS zeros, whatever the board held. Returns CENSUS_OK. */
uint32_t census_open(uint32_t board[CENSUS_WORDS]);

/* Takes one item: its bed has its state from now on, and the count of each office changes as the table says. Returns CENSUS_OK; or refusal 19 or
 * 22. */
uint32_t census_take(uint32_t board[CENSUS_WORDS], uint32_t value);

/* Reads a table: CENSUS_TABLE_WORDS words, twenty rows of office, state, and 1 counted or 0 not, one for each office and state, in any order. The
 * counts are made afresh from all beds. Returns CENSUS_OK; or refusal 20 or 22, and the table read before stays. */
uint32_t census_table(uint32_t board[CENSUS_WORDS], const uint32_t *rows, size_t words);

/* The count of an office, 0 to 3, to reply[0]; the rest of the reply stays. Returns CENSUS_OK; or refusal 21 or 22. */
uint32_t census_count(const uint32_t board[CENSUS_WORDS], uint32_t office, uint32_t reply[4]);

#ifdef __cplusplus
}
#endif

#endif
