/*
 * What the hosts share: random numbers that a seed gives, whose turn is next, clearing the way, and the end of a run in which something went wrong.
 */
#ifndef SCHEDULER_H
#define SCHEDULER_H

#include <stdio.h>
#include <stdlib.h>

#include "intake.h"

static const char *program; /* the name that stands before what went wrong */
static uint64_t random_word;

/* Begins the run that a program's first argument gives, a seed; that of seed 1 where there is none. */
static inline void begin(const char *name, int argc, char **argv) {
    program = name;
    random_word = 0x9e3779b97f4a7c15u ^ (uint32_t)(argc > 1 ? strtoul(argv[1], NULL, 10) : 1);
}

/* xorshift, so that a seed gives the same run everywhere */
static inline uint32_t draw(uint32_t below) {
    random_word ^= random_word << 13;
    random_word ^= random_word >> 7;
    random_word ^= random_word << 17;
    return (uint32_t)((random_word >> 33) % below);
}

static inline void fail(const char *what, uint32_t number) {
    fprintf(stderr, "%s: %s: %u\n", program, what, (unsigned)number);
    exit(1);
}

/* The thread whose turn is next, 0 the consumer or one of so many producers. A third and more of the turns are the consumer's. Now and then a
 * producer stops; a thread that has stopped lets its turns go by, as many as `stopped` has of it. */
static inline uint32_t next_turn(uint32_t producers, uint32_t *stopped) {
    for (;;) {
        uint32_t thread = draw(3) ? draw(producers + 1) : 0;
        if (stopped[thread] > 0) {
            stopped[thread]--;
            continue;
        }
        if (thread > 0 && draw(50) == 0) stopped[thread] = draw(200);
        return thread;
    }
}

/* Steps on every producer that stands in phase 4 or holds a retired record (docs/STEPS.md, "Room"). */
static inline void clear_the_way(const uint32_t *store, uint32_t producers, uint32_t (*step)(uint32_t thread)) {
    int accepted = 1;
    while (accepted) {
        accepted = 0;
        for (uint32_t thread = 1; thread <= producers; thread++)
            if (intake_in_the_way(store, thread) && step(thread) != INTAKE_REFUSED_NONE_FREE) accepted = 1;
    }
    for (uint32_t thread = 1; thread <= producers; thread++)
        if (intake_in_the_way(store, thread)) fail("a producer waits for a record, although there was room when its enqueue started", thread);
}

#endif
