/* What the benchmarks share: a clock, the least of some rounds, and draws that are the same in each of them. */
#ifndef ROUNDS_H
#define ROUNDS_H
#include <stdint.h>
#include <time.h>

static inline double now(void) {
    struct timespec t;
    clock_gettime(CLOCK_MONOTONIC, &t);
    return (double)t.tv_sec * 1e9 + (double)t.tv_nsec;
}

static inline void keep_least(double *least, double took) {
    if (*least == 0 || took < *least) *least = took;
}

#define SEED UINT64_C(88172645463325252)

static inline uint32_t draw(uint64_t *state, uint32_t below) {
    *state ^= *state << 13;
    *state ^= *state >> 7;
    *state ^= *state << 17;
    return (uint32_t)((*state >> 33) % below);
}
#endif
