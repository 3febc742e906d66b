/* Times the calls of the census and the same calls in plain C, in nanoseconds. The plain C looks at every word of the board at each call, too. */
#include <stddef.h>
#include <stdint.h>
#include <string.h>

#include "../include/census.h"
#include "bench/rounds.h"

enum { TABLE = CENSUS_BEDS, COUNTS = TABLE + CENSUS_OFFICES * CENSUS_STATES, EVERY_ROW = (1 << CENSUS_OFFICES * CENSUS_STATES) - 1 };

/* as a call into an archive cannot be taken into the loop that makes it, neither is one of these */
#define PLAIN __attribute__((noinline)) static uint32_t

struct lent {
    uint32_t *board;
    const uint32_t *numbers; /* values of items, or offices: one for each call */
    size_t calls;
    const uint32_t *rows;
    size_t words;
};

/* no branch in the loops, so that a compiler may take several words at a time */
static inline int in_range(const uint32_t *board)
{
    uint32_t above = 0;
    for (size_t k = 0; k < TABLE; k++)
        above |= board[k] > CENSUS_CLOSED;
    for (size_t k = TABLE; k < COUNTS; k++)
        above |= board[k] > 1;
    for (size_t k = COUNTS; k < CENSUS_WORDS; k++)
        above |= board[k] > CENSUS_BEDS;
    return !above;
}

PLAIN plain_take(uint32_t *board, uint32_t value)
{
    const uint32_t bed = CENSUS_BED(value), state = CENSUS_STATE(value);
    uint32_t counts[CENSUS_OFFICES], above = 0;
    if (!in_range(board))
        return CENSUS_REFUSED_BOARD;
    if (bed >= CENSUS_BEDS || state > CENSUS_CLOSED)
        return CENSUS_REFUSED_ITEM;
    for (size_t office = 0; office < CENSUS_OFFICES; office++) {
        const uint32_t *row = board + TABLE + CENSUS_STATES * office;
        counts[office] = board[COUNTS + office] + row[state] - row[board[bed]]; /* below 0 it wraps */
        above |= counts[office] > CENSUS_BEDS;
    }
    if (above)
        return CENSUS_REFUSED_BOARD;
    board[bed] = state;
    memcpy(board + COUNTS, counts, sizeof counts);
    return CENSUS_OK;
}

PLAIN plain_table(uint32_t *board, const uint32_t *rows, size_t words)
{
    uint32_t table[CENSUS_OFFICES][CENSUS_STATES], beds[CENSUS_STATES] = {0}, seen = 0;
    if (!in_range(board))
        return CENSUS_REFUSED_BOARD;
    if (words != CENSUS_TABLE_WORDS)
        return CENSUS_REFUSED_TABLE;
    for (const uint32_t *row = rows; row < rows + words; row += 3) {
        if (row[0] >= CENSUS_OFFICES || row[1] >= CENSUS_STATES || row[2] > 1)
            return CENSUS_REFUSED_TABLE;
        table[row[0]][row[1]] = row[2];
        seen |= 1u << (CENSUS_STATES * row[0] + row[1]);
    }
    if (seen != EVERY_ROW)
        return CENSUS_REFUSED_TABLE;
    memcpy(board + TABLE, table, sizeof table);
    for (size_t bed = 0; bed < CENSUS_BEDS; bed++)
        beds[board[bed]]++;
    for (size_t office = 0; office < CENSUS_OFFICES; office++) {
        uint32_t count = 0;
        for (size_t state = 0; state < CENSUS_STATES; state++)
            count += table[office][state] * beds[state];
        board[COUNTS + office] = count;
    }
    return CENSUS_OK;
}

PLAIN plain_count(const uint32_t *board, uint32_t office, uint32_t reply[4])
{
    if (!in_range(board))
        return CENSUS_REFUSED_BOARD;
    if (office >= CENSUS_OFFICES)
        return CENSUS_REFUSED_OFFICE;
    reply[0] = board[COUNTS + office];
    return CENSUS_OK;
}

/* The nanoseconds of one of the calls; the sum of what they answered goes to answers. */
#define TIMED(name, call)                                         \
    double name(const struct lent *l, uint32_t *answers)          \
    {                                                             \
        uint32_t reply[4] = {0}, sum = 0;                         \
        const double start = now();                               \
        for (size_t k = 0; k < l->calls; k++) {                   \
            sum += call;                                          \
            sum += reply[0];                                      \
            __asm__ volatile("" : : "r"(reply) : "memory");       \
        }                                                         \
        *answers = sum;                                           \
        return (now() - start) / (double)l->calls;                \
    }

TIMED(time_take, census_take(l->board, l->numbers[k]))
TIMED(time_table, census_table(l->board, l->rows, l->words))
TIMED(time_count, census_count(l->board, l->numbers[k], reply))
TIMED(time_plain_take, plain_take(l->board, l->numbers[k]))
TIMED(time_plain_table, plain_table(l->board, l->rows, l->words))
TIMED(time_plain_count, plain_count(l->board, l->numbers[k], reply))
