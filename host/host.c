/*
 * A host of the intake: sixteen producers and the consumer under a seeded random scheduler.
 *
 *     host [SEED [ITEMS]]
 *
 * Each producer enqueues ITEMS values, its number times 65,536 plus 0, 1, 2, ..; the host picks at random whose step is next, and now and
 * then stops a producer for a while. The consumer dequeues. Now and then its shift changes: it stands still while items come to wait, and the
 * next call is a drain. The host prints what the consumer received and checks that each producer's values arrive whole and in the order in
 * which it enqueued them. Calls of two producers that overlap have no order between them: call 4 may come out before call 1.
 * It prints how many steps the longest call of each kind took, and checks that the replies count a call's steps as the host does, an
 * enqueue's start as its first, and that no call takes more than INTAKE_MOST_ENQUEUE_STEPS, INTAKE_MOST_DEQUEUE_STEPS or
 * INTAKE_MOST_DRAIN_STEPS.
 *
 * It starts no enqueue where intake_has_room says no, and steps on whoever is in the way before the consumer, so that no producer waits for a
 * record for good (docs/STEPS.md, "Room"). A step that is refused with 8 is made again later.
 */
#include <stdio.h>
#include <stdlib.h>

#include "intake.h"
#include "scheduler.h"

enum { ENTRIES = 8, RECORDS = 64, PRODUCERS = 16, PRINTED = 12, FROM = 2, UNUSED = 0xA5A5 };

_Static_assert(RECORDS >= INTAKE_LEAST_RECORDS(ENTRIES, PRODUCERS), "too few records for so many producers");

/* what a thread does */
enum kind { IDLE, ENQUEUE, DEQUEUE, DRAIN, KINDS };

static const uint32_t most_steps[KINDS] = {0, INTAKE_MOST_ENQUEUE_STEPS(RECORDS, PRODUCERS), INTAKE_MOST_DEQUEUE_STEPS(ENTRIES, RECORDS),
                                           INTAKE_MOST_DRAIN_STEPS(ENTRIES, RECORDS, INTAKE_MOST_DRAINED)};

static uint32_t store[INTAKE_WORDS(ENTRIES, RECORDS, PRODUCERS)], buffer[FROM + INTAKE_MOST_BUFFER];
static const size_t words = sizeof store / sizeof store[0], buffer_words = sizeof buffer / sizeof buffer[0];

static uint32_t items, sent[PRODUCERS + 1], received[PRODUCERS + 1], total, empties, drains, drained, waits;
static uint64_t steps;
static enum kind under_way[PRODUCERS + 1];
static uint32_t taken[PRODUCERS + 1], longest[KINDS];

static void receive(uint32_t call, uint32_t value) {
    uint32_t from = value / 65536, place = value % 65536;
    if (total < PRINTED) printf("call %u: producer %u, its item %u\n", (unsigned)call, (unsigned)from, (unsigned)place);
    if (total == PRINTED) printf("..\n");
    if (from < 1 || from > PRODUCERS || place != received[from]) fail("an item out of its producer's order", value);
    received[from]++;
    total++;
}

/* The items of a drain are in the buffer from the named word on; its other words stay. */
static void receive_all(uint32_t count) {
    if (count > INTAKE_MOST_DRAINED) fail("more items than the limit", count);
    for (uint32_t k = 0; k < count; k++) receive(buffer[FROM + 2 * k], buffer[FROM + 2 * k + 1]);
    for (uint32_t k = 0; k < buffer_words; k++)
        if ((k < FROM || k >= FROM + 2 * count) && buffer[k] != UNUSED) fail("a word of the buffer was written", k);
    drains++;
    drained += count;
}

/* An accepted step of a thread, whose reply says that it is the so-many-th of its call. */
static void count_step(uint32_t thread, uint32_t so_far) {
    enum kind kind = under_way[thread];
    steps++;
    if (so_far != ++taken[thread]) fail("steps of a call counted otherwise", so_far);
    if (so_far > longest[kind]) longest[kind] = so_far;
    if (so_far > most_steps[kind]) fail("a call of too many steps", so_far);
}

/* starts the next call of an idle thread, if it has one; the start of an enqueue is a step */
static void start(uint32_t thread, int shift_changed) {
    uint32_t reply[4] = {0}, answer;
    if (thread > 0) {
        if (sent[thread] == items || !intake_has_room(store)) return;
        answer = intake_start_enqueue(store, words, thread, thread * 65536 + sent[thread]++, reply);
        under_way[thread] = ENQUEUE;
    } else if (shift_changed) {
        for (uint32_t k = 0; k < buffer_words; k++) buffer[k] = UNUSED;
        answer = intake_start_drain(store, words, INTAKE_MOST_DRAINED);
        under_way[0] = DRAIN;
    } else {
        answer = intake_start_dequeue(store, words);
        under_way[0] = DEQUEUE;
    }
    if (answer != INTAKE_OK) fail("start", answer);
    if (thread > 0) count_step(thread, reply[2]);
}

/* The engine's answer to a step. */
static uint32_t step(uint32_t thread) {
    uint32_t reply[4] = {0}, answer = intake_step(store, words, thread, buffer, buffer_words, FROM, reply);
    if (answer >= INTAKE_GOING) count_step(thread, reply[2]); /* accepted */
    if (answer > INTAKE_GOING) { /* the call has ended */
        under_way[thread] = IDLE;
        taken[thread] = 0;
    }
    switch (answer) {
    case INTAKE_GOING:
    case INTAKE_END:
        break;
    case INTAKE_EMPTY:
        empties++;
        break;
    case INTAKE_ITEM:
        receive(reply[0], reply[1]);
        break;
    case INTAKE_DRAINED:
        receive_all(reply[0]);
        break;
    case INTAKE_REFUSED_NONE_FREE:
        waits++;
        break;
    default:
        fail("step", answer);
    }
    return answer;
}

int main(int argc, char **argv) {
    uint32_t stopped[PRODUCERS + 1] = {0};
    int shift_changed = 0;

    begin("host", argc, argv);
    items = argc > 2 ? (uint32_t)strtoul(argv[2], NULL, 10) : 500;
    if (items == 0 || items > 60000) fail("items must be 1 to 60000, not", items);
    uint32_t opened = intake_open(store, words, ENTRIES, RECORDS, PRODUCERS, PRODUCERS * items);
    if (opened != INTAKE_OK) fail("open", opened);

    while (total < PRODUCERS * items) {
        uint32_t thread = next_turn(PRODUCERS, stopped);
        if (under_way[thread]) {
            if (thread == 0) clear_the_way(store, PRODUCERS, step);
            step(thread);
        } else if (thread == 0 && !shift_changed && draw(100) == 0) {
            stopped[0] = draw(400);
            shift_changed = 1;
        } else {
            start(thread, shift_changed);
            shift_changed = thread > 0 && shift_changed;
        }
    }
    printf("longest enqueue %u steps, longest dequeue %u steps, longest drain %u steps\n", (unsigned)longest[ENQUEUE],
           (unsigned)longest[DEQUEUE], (unsigned)longest[DRAIN]);
    printf("%u items received, each producer's in its order; %u of them by %u drains; %llu steps, %u empty answers, %u steps refused with 8\n",
           (unsigned)total, (unsigned)drained, (unsigned)drains, (unsigned long long)steps, (unsigned)empties, (unsigned)waits);
    return 0;
}
