/*
 * The intake: a queue of many producers and one consumer that a host runs one small step at a time.
 *
 * The store is an array of 32-bit words that the host lends with every call; the engine keeps nothing else. Between calls the host may
 * copy the store, save it or send it elsewhere, but must not write to it. Calls on one store must not overlap: a host with threads of its
 * own guards the store by one mutex. The producers and the consumer are numbers, not threads of the machine.
 *
 * Sizes: entries in a record 2 to 64, records 2 to 64, producers 1 to 16, enqueue starts allowed 1 to 1,000,000. The store takes
 *     16 + 8 * (producers + 1) + records * (3 * entries + 4) + 130
 * words, at most 12,826. Words past that are never read or written.
 *
 * The same calls after an open of the same sizes leave the same words in any store, and are answered alike.
 *
 * Every call returns. A refused call returns its number, 1 to 9, 14 or 15 below, and changes no word of store, buffer or reply. `store`
 * points to `words` words, `buffer` to `buffer_words` and `reply` to four, no two of them sharing a word; all are aligned and not NULL, also
 * where they have no words. A call takes less than 4 KB of stack.
 *
 * Every start and step first looks whether each word of the store is in its range, and refuses with 3 if one is not. Damage that stays in
 * range is not seen then: such a store may be followed, or refused with 9, or send a call round in a circle, which ends with 9 only when
 * INTAKE_MOST_STEPS steps have been counted. So a loop over INTAKE_GOING needs a limit where something else may have written the store. No
 * memory but what was lent is touched.
 */
#ifndef INTAKE_H
#define INTAKE_H

#include <stddef.h>
#include <stdint.h>

#ifdef __cplusplus
extern "C" {
#endif

/* Grows when a call, a number or a word of the store changes its meaning. 7: starting an enqueue takes its position and is its first step, so
 * that reply[2] is 1 then and one step less follows; it is refused with 9 where no position is left; and no producer is in phase 1. The words
 * of a store of version 6 are in range here if each enqueue under way has been stepped; what is proved speaks of stores that this version
 * alone has written. */
#define INTAKE_VERSION 7

/* What the calls return. */
enum {
    INTAKE_OK = 0,                /* open, start: accepted */
    INTAKE_REFUSED_SIZES = 1,     /* open: a size outside its limits */
    INTAKE_REFUSED_SHORT = 2,     /* the store is shorter than 16 words, or than its sizes need */
    INTAKE_REFUSED_RANGE = 3,     /* a word of the store is out of its range */
    INTAKE_REFUSED_THREAD = 4,    /* no such producer; step of a thread above the number of producers */
    INTAKE_REFUSED_BUSY = 5,      /* start: that thread has a call under way */
    INTAKE_REFUSED_STARTS = 6,    /* start: all enqueue starts have been used */
    INTAKE_REFUSED_IDLE = 7,      /* step: the thread has no call under way */
    INTAKE_REFUSED_NONE_FREE = 8, /* step of an enqueue: no record is free; it may be made again (intake_has_room and intake_in_the_way say how
                                     to keep it from staying so) */
    INTAKE_REFUSED_LINK = 9,      /* step: a link is missing, an index leaves its record or a number its range; start of an enqueue: no position
                                     is left, though a start is; never on a store that only the engine has written */
    INTAKE_REFUSED_LIMIT = 14,    /* start of a drain: a limit outside 1 to INTAKE_MOST_DRAINED */
    INTAKE_REFUSED_BUFFER = 15,   /* step that would end a drain: the buffer is too short from the named word, or ends before it; the drain
                                     stays under way, and the step may be made again */
    INTAKE_GOING = 100,           /* step: the call is still under way */
    INTAKE_END = 101,             /* step: the enqueue has ended */
    INTAKE_EMPTY = 102,           /* step: the dequeue has ended, nothing was there */
    INTAKE_ITEM = 103,            /* step: the dequeue has ended with an item */
    INTAKE_DRAINED = 104          /* step: the drain has ended; its items, none or more, are in the buffer */
};

/* Words of the store that a host may read between calls: the sizes, the positions taken so far, the position of the head. */
enum { INTAKE_ENTRIES = 0, INTAKE_RECORDS = 1, INTAKE_PRODUCERS = 2, INTAKE_TAIL = 6, INTAKE_HEAD = 9 };

/* The most items of one drain, the words of the buffer that they take, and the words of the store that a drain keeps them in. */
#define INTAKE_MOST_DRAINED 64u
#define INTAKE_MOST_BUFFER (2u * INTAKE_MOST_DRAINED)
#define INTAKE_DRAIN_WORDS (2u + 2u * INTAKE_MOST_DRAINED)

/* The words that a store of these sizes takes. */
#define INTAKE_WORDS(entries, records, producers) \
    (16u + 8u * ((producers) + 1u) + (records) * (3u * (entries) + 4u) + INTAKE_DRAIN_WORDS)
#define INTAKE_MOST_WORDS 12826u

/* The most steps of one call that are counted: the step after them is refused with 9. */
#define INTAKE_MOST_STEPS 100000000u

/* The most steps that a dequeue takes on a store of these sizes that only the engine has written, whatever steps others make in between:
 * at most 8,675,745, for 64 and 64. */
#define INTAKE_MOST_DEQUEUE_STEPS(entries, records) \
    ((records) * (5u * (entries) + 3u) + 3u * (entries) + 1u + (records) * ((entries) + 1u) * ((records) * ((entries) + 1u) + 1u) / 2u)

/* The same of a drain of this limit, 1 to INTAKE_MOST_DRAINED: at most 8,942,109, for 64, 64 and 64. */
#define INTAKE_MOST_DRAIN_STEPS(entries, records, limit) \
    (INTAKE_MOST_DEQUEUE_STEPS(entries, records) + ((limit)-1u) * ((records) * ((entries) + 1u) + (entries) + 4u))

/* The most accepted steps that an enqueue takes, its start among them, on a store of these sizes that only the engine has written, whatever
 * steps others make in between: at most 150, for 64 and 16. A step refused with 8 is not accepted and not counted. */
#define INTAKE_MOST_ENQUEUE_STEPS(records, producers) (5u * (producers) + (records) + 6u)

/* So many records are enough for intake_has_room to say yes of a store with no item left and no call under way: 2 * producers + 4, and more
 * if producers are above entries. */
#define INTAKE_LEAST_RECORDS(entries, producers) (2u * (producers) + 3u + ((producers) + (entries) - 1u) / (entries))

/* Whether another enqueue may start: the records that are linked, those that may be linked before the host looks again, and two for each
 * producer are no more than there are. A host that starts none where this says no, and that before each step of the consumer steps on
 * whoever is in the way (below), may meet refusal 8, but not for good (docs/STEPS.md, "Room"). It reads an opened store, and says no where
 * the sizes are out of their limits. */
static inline int intake_has_room(const uint32_t *store) {
    const uint64_t entries = store[INTAKE_ENTRIES], records = store[INTAKE_RECORDS], producers = store[INTAKE_PRODUCERS];
    const uint32_t *record;
    uint64_t linked = 0, last = 0, reach;
    if (entries < 2 || entries > 64 || records > 64 || producers > 16) return 0;
    record = store + 16 + 8 * (producers + 1);
    for (uint64_t k = 0; k < records; k++, record += 3 * entries + 4) {
        if (record[3] != 2) continue; /* its use: linked */
        linked++;
        if (record[0] > last) last = record[0]; /* its place */
    }
    reach = (store[INTAKE_TAIL] + producers + 2 * entries - 2) / entries; /* the last place that may be linked by then */
    return linked + (reach > last ? reach - last : 0) + 2 * producers <= records;
}

/* Whether a producer, 1 to producers, stands in phase 4 or holds a retired record. Such a producer keeps retired records from being free, and
 * may itself be waiting for one of them. A host that steps it on, whoever's turn it is, before each step of the consumer keeps the store from
 * running dry for good. It reads a store that was opened and is in range. */
static inline int intake_in_the_way(const uint32_t *store, uint32_t producer) {
    const uint64_t entries = store[INTAKE_ENTRIES], producers = store[INTAKE_PRODUCERS];
    const uint32_t *own = store + 16 + 8 * (uint64_t)producer;
    const uint64_t held = own[4]; /* plus one; 0 is none */
    return own[0] == 4 || (held > 0 && store[16 + 8 * (producers + 1) + (held - 1) * (3 * entries + 4) + 3] == 3);
}

/* Makes the store empty. Returns INTAKE_OK, or refusal 1 or 2. */
uint32_t intake_open(uint32_t *store, size_t words, uint32_t entries, uint32_t records, uint32_t producers, uint32_t starts);

/* Producer 1 to producers begins to enqueue value, and takes the next position: that is the first step of its call. Returns INTAKE_OK, and puts
 * the call number into reply[0] and 1, the steps so far, into reply[2]; reply[1] and reply[3] stay as they are. Or refusal 2 to 6 or 9. */
uint32_t intake_start_enqueue(uint32_t *store, size_t words, uint32_t producer, uint32_t value, uint32_t reply[4]);

/* The consumer begins to dequeue. Returns INTAKE_OK; or refusal 2, 3 or 5. */
uint32_t intake_start_dequeue(uint32_t *store, size_t words);

/* The consumer begins to take what waits, up to limit items (1 to INTAKE_MOST_DRAINED). Returns INTAKE_OK; or refusal 2, 3, 5 or 14. */
uint32_t intake_start_drain(uint32_t *store, size_t words, uint32_t limit);

/* One step of a thread: 0 the consumer, 1 to producers the producers. Returns INTAKE_GOING, _END, _EMPTY, _ITEM or _DRAINED; or refusal 2 to
 * 4, 7 to 9 or 15.
 * On INTAKE_ITEM reply[0] is the call number of the item's enqueue and reply[1] its value. On INTAKE_DRAINED reply[0] says how many items the
 * drain gave and reply[1] is 0; the items, call number and value of each in the order in which they were taken, are in the buffer from
 * buffer[from] on, and its other words stay. Otherwise reply[0] and reply[1] stay as they are. On every accepted step reply[2] is the number of
 * accepted steps of that call so far, this one and an enqueue's start included; on a store that something else has written it is the stored
 * number plus one. reply[3] stays as it is.
 * Only the step that ends a drain looks at buffer and from: two words are needed for each item, and none where a drain gives none (from may then
 * be buffer_words, but not more). A host that never drains lends a buffer of no words. */
uint32_t intake_step(uint32_t *store, size_t words, uint32_t thread, uint32_t *buffer, size_t buffer_words, uint32_t from, uint32_t reply[4]);

#ifdef __cplusplus
}
#endif

#endif
