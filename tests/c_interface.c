/* What test_c_interface.py calls: the headers' guards and macros, and how much stack the proved calls take. */
#include <pthread.h>
#include <stdlib.h>
#include <string.h>

#include "../include/census.h"
#include "../include/intake.h"
#include "../include/judge.h"
#include "../include/recordings.h"

enum { WORDS = INTAKE_MOST_WORDS, EVENTS = JUDGE_MOST_EVENTS, STACK = 4 << 20, PAINT = 0xA5 };

int has_room(const uint32_t *store) { return intake_has_room(store); }
int in_the_way(const uint32_t *store, uint32_t producer) { return intake_in_the_way(store, producer); }
uint32_t words_of(uint32_t entries, uint32_t records, uint32_t producers) { return INTAKE_WORDS(entries, records, producers); }
uint32_t least_records(uint32_t entries, uint32_t producers) { return INTAKE_LEAST_RECORDS(entries, producers); }
uint32_t most_enqueue_steps(uint32_t records, uint32_t producers) { return INTAKE_MOST_ENQUEUE_STEPS(records, producers); }
uint32_t most_dequeue_steps(uint32_t entries, uint32_t records) { return INTAKE_MOST_DEQUEUE_STEPS(entries, records); }
uint32_t most_drain_steps(uint32_t entries, uint32_t records, uint32_t limit) { return INTAKE_MOST_DRAIN_STEPS(entries, records, limit); }

/* a run of every phase on the largest store, threads in uneven turns, dequeues and drains, then a refusal */
static void engine(void) {
    static uint32_t store[WORDS], buffer[INTAKE_MOST_BUFFER], reply[4];
    intake_open(store, WORDS, 64, 64, 16, 1000000);
    for (uint32_t k = 0; k < 30000; k++) {
        uint32_t thread = (k * k + k / 17) % 17;
        if (intake_step(store, WORDS, thread, buffer, INTAKE_MOST_BUFFER, 0, reply) != INTAKE_REFUSED_IDLE) continue;
        if (thread > 0) {
            intake_start_enqueue(store, WORDS, thread, k, reply);
        } else if (k % 2) {
            intake_start_dequeue(store, WORDS);
        } else {
            intake_start_drain(store, WORDS, INTAKE_MOST_DRAINED);
        }
    }
    store[WORDS - 2] = UINT32_MAX;
    intake_step(store, WORDS, 0, buffer, INTAKE_MOST_BUFFER, 0, reply);
}

static uint32_t history[4 * EVENTS], order[EVENTS], judged[4];

/* 4,096 events: an enqueue and the dequeue of its item, again and again */
static void record(uint32_t *words) {
    for (uint32_t k = 0; k < EVENTS / 4; k++) {
        const uint32_t n = k + 1, events[16] = {1, 1, n, n, 2, 1, n, n, 3, 0, 0, 0, 4, 0, n, n};
        memcpy(words + 16 * k, events, sizeof events);
    }
}

static void judge(void) {
    static struct judge_call table[EVENTS];
    record(history);
    judge_history(history, 4 * EVENTS, table, EVENTS, order, EVENTS, judged);
}

/* the order of that */
static void check(void) { order_check(history, 4 * EVENTS, order, judged[0]); }

/* the same events, but in the second each dequeue starts before the enqueue ends */
static uint32_t first[4 * EVENTS], second[4 * EVENTS];

static void record_both(void) {
    record(first);
    record(second);
    for (uint32_t k = 0; k < EVENTS / 4; k++) {
        memcpy(second + 16 * k + 4, first + 16 * k + 8, 16);
        memcpy(second + 16 * k + 8, first + 16 * k + 4, 16);
    }
}

static void compare(void) {
    uint32_t reply[4];
    record_both();
    recordings_compare(first, 4 * EVENTS, second, 4 * EVENTS, reply);
}

static void keep(void) {
    record_both();
    recordings_keep_precedence(first, 4 * EVENTS, second, 4 * EVENTS);
}

/* every call of the census: a table, each bed in each state, the counts, then one refusal of each number */
static void census(void) {
    static uint32_t board[CENSUS_WORDS], rows[CENSUS_TABLE_WORDS], reply[4];
    for (uint32_t k = 0; k < CENSUS_TABLE_WORDS / 3; k++) {
        rows[3 * k] = k / CENSUS_STATES;
        rows[3 * k + 1] = k % CENSUS_STATES;
        rows[3 * k + 2] = k % 2;
    }
    census_open(board);
    census_table(board, rows, CENSUS_TABLE_WORDS);
    for (uint32_t k = 0; k < CENSUS_STATES * CENSUS_BEDS; k++) census_take(board, CENSUS_VALUE(k % CENSUS_BEDS, k / CENSUS_BEDS));
    for (uint32_t office = 0; office <= CENSUS_OFFICES; office++) census_count(board, office, reply);
    census_take(board, CENSUS_VALUE(CENSUS_BEDS, CENSUS_FREE));
    census_table(board, rows, 0);
    board[0] = CENSUS_STATES;
    census_take(board, 0);
}

static void nothing(void) {}

static void *run(void *which) {
    static void (*const runs[])(void) = {nothing, engine, judge, check, compare, keep, census};
    runs[*(int *)which]();
    return NULL;
}

/* The bytes of a painted stack that a thread has written: 0 by doing nothing, 1 by the engine, 2 by the judge, 3 by the check, 4 by the
   comparison of two recordings, 5 by the test of the precedence, 6 by the census. */
size_t stack_used(int which) {
    unsigned char *stack = aligned_alloc(4096, STACK);
    pthread_attr_t attributes;
    pthread_t thread;
    size_t clean = 0;
    if (!stack) return 0;
    memset(stack, PAINT, STACK);
    pthread_attr_init(&attributes);
    pthread_attr_setstack(&attributes, stack, STACK);
    if (pthread_create(&thread, &attributes, run, &which) != 0) return 0;
    pthread_join(thread, NULL);
    while (clean < STACK && stack[clean] == PAINT) clean++;
    free(stack);
    return STACK - clean;
}
