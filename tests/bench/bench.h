/* What is timed: calls on a store, the search that a claim makes, and a bare pass over the store's words. */
#ifndef BENCH_H
#define BENCH_H
#include <stddef.h>
#include <stdint.h>

struct Contestant {
    const char *label;
    uint32_t (*start_enqueue)(uint32_t *s, size_t words, uint32_t t, uint32_t value, uint32_t reply[4]);
    uint32_t (*start_dequeue)(uint32_t *s, size_t words);
    uint32_t (*start_drain)(uint32_t *s, size_t words, uint32_t limit);
    uint32_t (*step)(uint32_t *s, size_t words, uint32_t t, uint32_t *buffer, size_t buffer_words, uint32_t from, uint32_t reply[4]);
    uint32_t (*search)(uint32_t *s); /* the claim's search alone, of admitted words; none where it cannot be called by itself */
};

struct Pass {
    const char *label;
    uint32_t (*pass)(const uint32_t *s, size_t words);
};
#endif
