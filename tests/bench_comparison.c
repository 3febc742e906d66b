/* Times the comparison of two recordings, the test of the precedence, the same two in plain C, and a loop over the words of both, in
   nanoseconds. */
#include <stddef.h>
#include <stdint.h>
#include <string.h>
#include <time.h>

#include "../include/recordings.h"

enum { EVENTS = 4096, THREADS = 17, NUMBERS = 2 * EVENTS };

struct lent {
    const uint32_t *first;
    size_t first_words;
    const uint32_t *second;
    size_t second_words;
};

/* Whether a number is new among those that a table has. */
static int is_new(uint32_t table[NUMBERS], uint32_t number)
{
    size_t k = number * 2654435761u % NUMBERS;
    for (; table[k] != 0; k = (k + 1) % NUMBERS)
        if (table[k] == number)
            return 0;
    table[k] = number;
    return 1;
}

static int well_formed(const uint32_t e[4])
{
    switch (e[0]) {
    case 1:
    case 2: return 1 <= e[1] && e[1] <= 16 && e[2] != 0;
    case 4: return e[1] == 0 && e[2] != 0;
    case 3:
    case 5: return e[1] == 0 && e[2] == 0 && e[3] == 0;
    default: return 0;
    }
}

static int is_start(const uint32_t *event) { return event[0] == 1 || event[0] == 3; }

static uint32_t plain_refusal(const uint32_t *words, size_t length)
{
    uint32_t numbers[NUMBERS] = {0};
    const uint32_t *running[THREADS] = {0};
    if (length % 4 || length / 4 > EVENTS)
        return 10;
    for (const uint32_t *e = words; e < words + length; e += 4) {
        if (!well_formed(e))
            return 12;
        if (is_start(e)) {
            if (running[e[1]] || (e[0] == 1 && !is_new(numbers, e[2])))
                return 13;
            running[e[1]] = e;
        } else {
            const uint32_t *start = running[e[1]];
            if (!start || (e[0] == 2 && (start[2] != e[2] || start[3] != e[3])))
                return 13;
            running[e[1]] = NULL;
        }
    }
    return 0;
}

/* The places of the events by thread, those of a thread in their order; ends has where each thread's end. */
static void by_thread(const uint32_t *words, size_t events, uint32_t *places, uint32_t ends[THREADS])
{
    uint32_t counts[THREADS] = {0}, sum = 0;
    for (size_t k = 0; k < events; k++)
        counts[words[4 * k + 1]]++;
    for (int t = 0; t < THREADS; t++) {
        ends[t] = sum;
        sum += counts[t];
    }
    for (size_t k = 0; k < events; k++)
        places[ends[words[4 * k + 1]]++] = (uint32_t)k;
}

/* Whether two recordings have the same calls; then at[k] is the event of the first that event k of the second is. */
static int plain_same(const struct lent *l, uint32_t at[EVENTS])
{
    uint32_t ones[EVENTS], twos[EVENTS], one_ends[THREADS], two_ends[THREADS];
    const size_t events = l->first_words / 4;
    if (l->first_words != l->second_words)
        return 0;
    by_thread(l->first, events, ones, one_ends);
    by_thread(l->second, events, twos, two_ends);
    if (memcmp(one_ends, two_ends, sizeof one_ends) != 0)
        return 0;
    for (size_t k = 0; k < events; k++) {
        if (memcmp(l->first + 4 * ones[k], l->second + 4 * twos[k], 16) != 0)
            return 0;
        at[twos[k]] = ones[k];
    }
    return 1;
}

static size_t shared_events(const struct lent *l)
{
    const size_t words = l->first_words < l->second_words ? l->first_words : l->second_words;
    size_t k = 0;
    while (k < words && memcmp(l->first + k, l->second + k, 16) == 0)
        k += 4;
    return k / 4;
}

uint32_t plain_compare(const struct lent *l, uint32_t reply[4])
{
    uint32_t at[EVENTS], one = plain_refusal(l->first, l->first_words), two = one ? 0 : plain_refusal(l->second, l->second_words);
    reply[1] = 1;
    if (one || two) {
        reply[0] = one ? 1 : 2;
        reply[2] = l->first_words < UINT32_MAX ? (uint32_t)l->first_words : UINT32_MAX;
        return one ? one : two;
    }
    if (l->second_words > l->first_words)
        reply[1] = 2;
    reply[2] = (uint32_t)(4 * shared_events(l));
    return plain_same(l, at) ? RECORDINGS_SAME_CALLS : RECORDINGS_OTHER_CALLS;
}

uint32_t plain_keep(const struct lent *l)
{
    uint32_t at[EVENTS], latest = 0;
    if (plain_refusal(l->first, l->first_words) || plain_refusal(l->second, l->second_words) || !plain_same(l, at))
        return RECORDINGS_DO_NOT_KEEP;
    for (size_t k = 0; k < l->second_words / 4; k++) {
        const uint32_t place = at[k] + 1;
        if (!is_start(l->second + 4 * k))
            latest = place > latest ? place : latest;
        else if (place < latest)
            return RECORDINGS_DO_NOT_KEEP;
    }
    return RECORDINGS_KEEP;
}

/* How many words are the same in both, place by place. */
static uint32_t same_words(const struct lent *l)
{
    uint32_t same = 0;
    for (size_t k = 0; k < l->first_words && k < l->second_words; k++)
        same += l->first[k] == l->second[k];
    return same;
}

static double now(void)
{
    struct timespec t;
    clock_gettime(CLOCK_MONOTONIC, &t);
    return t.tv_sec * 1e9 + t.tv_nsec;
}

/* Times turns of an expression; the last result goes to answer. */
#define TIMED(name, call)                                              \
    double name(const struct lent *l, int turns, uint32_t *answer)     \
    {                                                                  \
        uint32_t reply[4] = {0};                                       \
        const double start = now();                                    \
        for (int i = 0; i < turns; i++) {                              \
            *answer = call;                                            \
            __asm__ volatile("" : : "r"(reply) : "memory");            \
        }                                                              \
        return (now() - start) / turns;                                \
    }

TIMED(time_compare, recordings_compare(l->first, l->first_words, l->second, l->second_words, reply))
TIMED(time_keep, recordings_keep_precedence(l->first, l->first_words, l->second, l->second_words))
TIMED(time_plain_compare, plain_compare(l, reply))
TIMED(time_plain_keep, plain_keep(l))
TIMED(time_words, same_words(l))
