/* Times a call of the judge, of the check of its order, and a plain pass over the same words, in nanoseconds. With BEFORE the judge is that of
   before document 02's U9, which wrote no order, and there is no check. */
#include <stddef.h>
#include <stdint.h>
#include <time.h>

struct call {
    uint32_t kind, start, end, answer;
};

struct lent {
    const uint32_t *history;
    size_t words;
    struct call *table;
    size_t entries;
    uint32_t *order;
    size_t order_words;
};

#ifdef BEFORE
uint32_t judge_history(const uint32_t *history, size_t words, struct call *table, size_t entries);
#define JUDGE(l, reply) judge_history((l)->history, (l)->words, (l)->table, (l)->entries)
#else
uint32_t judge_history(const uint32_t *history, size_t words, struct call *table, size_t entries, uint32_t *order, size_t order_words,
                       uint32_t reply[4]);
uint32_t order_check(const uint32_t *history, size_t words, const uint32_t *order, size_t order_words);
#define JUDGE(l, reply) judge_history((l)->history, (l)->words, (l)->table, (l)->entries, (l)->order, (l)->order_words, reply)
#endif

static double now(void)
{
    struct timespec t;
    clock_gettime(CLOCK_MONOTONIC, &t);
    return t.tv_sec * 1e9 + t.tv_nsec;
}

static uint32_t plain_pass(const uint32_t *history, size_t words)
{
    uint32_t sum = 0;
    for (size_t i = 0; i < words; i++)
        sum = sum * 31 + history[i];
    return sum;
}

/* answer[0] is what the judge answers, answer[1] how many words the order has. */
double time_judge(const struct lent *l, int turns, uint32_t answer[2])
{
    uint32_t reply[4] = {0};
    double start = now();
    for (int i = 0; i < turns; i++)
        answer[0] = JUDGE(l, reply);
    answer[1] = reply[0];
    return (now() - start) / turns;
}

#ifndef BEFORE
double time_check(const struct lent *l, int turns, uint32_t answer[2])
{
    double start = now();
    for (int i = 0; i < turns; i++)
        answer[0] = order_check(l->history, l->words, l->order, answer[1]);
    return (now() - start) / turns;
}
#endif

double time_pass(const struct lent *l, int turns, uint32_t answer[2])
{
    double start = now();
    for (int i = 0; i < turns; i++)
        answer[0] += plain_pass(l->history, l->words);
    return (now() - start) / turns;
}
