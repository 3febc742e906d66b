/* The bare pass: every word is looked at once, and nothing else is done. */
#include "bench.h"

static uint32_t pass(const uint32_t *s, size_t words) {
    uint32_t most = 0;
    for (size_t i = 0; i < words; i++) most |= s[i];
    return most;
}

const struct Pass CONTESTANT = {LABEL, pass};
