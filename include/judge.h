/*
 * The judge: whether a history of calls is explained by a first-in first-out queue, the order of the calls that shows it, and a check of such
 * an order that trusts nothing the judge did.
 *
 * A history is an array of events, each four words: kind, thread, call number, value. Kinds: 1 enqueue started, 2 enqueue ended, 3 dequeue
 * started, 4 dequeue ended with an item (words three and four are the item's), 5 dequeue ended empty. Kinds 1 and 2 have threads 1 to 16, the
 * others thread 0; kinds 3 and 5 have zeros in words three and four; call numbers are 1 or more. At most JUDGE_MOST_EVENTS events.
 *
 * An order is an array of starting numbers: calls counted from 1 by their starts. It shows that the history is linearizable where it names every
 * ended call, none twice, no call behind one that started after it had ended, and the calls run in that order on a queue, empty at first. A call
 * under way may be left out, or kept as ended after every event.
 *
 * Every call returns. A refused call returns its number, 10 to 13 or 16 below, and changes no word of table, order or reply. `history` points to
 * `words` words, `table` to `entries` entries, `order` to `order_words` words and `reply` to four, no two of them sharing a word; all are aligned
 * and not NULL, also where they have no words. Nothing is kept between calls. A call takes less than 256 KB of stack.
 */
#ifndef JUDGE_H
#define JUDGE_H

#include <stddef.h>
#include <stdint.h>

#ifdef __cplusplus
extern "C" {
#endif

#define JUDGE_MOST_EVENTS 4096

/* What the calls return. The numbers 10 to 13 are looked at in this order, 12 and 13 event by event. */
enum {
    JUDGE_EXPLAINED = 0,        /* judge_history: linearizable; the order is written */
    JUDGE_UNEXPLAINED = 1,      /* judge_history: not linearizable; no word of the order is written */
    ORDER_YES = 0,              /* order_check: the order shows that the history is linearizable */
    ORDER_NO = 1,               /* order_check: it does not */
    JUDGE_REFUSED_LENGTH = 10,  /* the words are no multiple of 4, or more than JUDGE_MOST_EVENTS events */
    JUDGE_REFUSED_TABLE = 11,   /* judge_history: the table has fewer entries than there are events */
    JUDGE_REFUSED_FORM = 12,    /* an event not of the form above */
    JUDGE_REFUSED_FOLLOWS = 13, /* a thread already busy, an end without its start, a call number started twice */
    JUDGE_REFUSED_ORDER = 16    /* judge_history: the order has fewer words than calls were started, whatever the verdict would be */
};

/* An entry of the working table: a started call, in starting order. */
struct judge_call {
    uint32_t kind;   /* 1 enqueue, 3 dequeue */
    uint32_t start;  /* its start event, counted from 1 */
    uint32_t end;    /* its end event, 0 for a call under way */
    uint32_t answer; /* the item's call number for a dequeue that gave one, else 0 */
};

/* Judges a history. It fills an entry of the table for each started call; later ones stay. On JUDGE_EXPLAINED it writes a linearization to the
 * order, one word for each call that it keeps, and how many to reply[0]; words past those, and the rest of the reply, stay. */
uint32_t judge_history(const uint32_t *history, size_t words, struct judge_call *table, size_t entries, uint32_t *order, size_t order_words,
                       uint32_t reply[4]);

/* Whether the words of an order show that a history is linearizable. It needs no table and no verdict. */
uint32_t order_check(const uint32_t *history, size_t words, const uint32_t *order, size_t order_words);

#ifdef __cplusplus
}
#endif

#endif
