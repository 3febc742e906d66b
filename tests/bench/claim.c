/* Times the claim's search beside the same search in C, in rounds in which each contestant has its turn; a figure is the best round. The C is
 * called by itself. The engine's search is a difference: at a full count a step changes nothing, in phase 4 it makes the search and is refused
 * with 9, or 8 where none is free, and in phase 3 it is refused with 9 and makes none. A step in phases 4 and 10 that claims is timed with what
 * it changed put back, less the time of putting it back. Last, random calls as a host makes them that keeps the room and clears the way: how many of them search, and so which
 * part of their time is searched. */
#include <stdio.h>
#include <stdlib.h>
#include <string.h>

#include "../../include/intake.h"
#include "bench.h"
#include "rounds.h"

enum { ROUNDS = 60, CALLS = 4000, LAST_CLAIMED = 11, THREADS = 16, PHASE = 0, HELD = 4, STEPS = 7, PLACE = 0, USE = 3, FULL = 100000000 };

#define X(name) extern const struct Contestant name;
CONTESTANTS
#undef X
static const struct Contestant engine = {.label = "engine", .step = intake_step};
#ifdef BEFORE
uint32_t before_intake_step(uint32_t *s, size_t words, uint32_t t, uint32_t *buffer, size_t buffer_words, uint32_t from, uint32_t reply[4]);
static const struct Contestant before = {.label = "engine before", .step = before_intake_step};
#endif
static const struct Contestant *const contestants[] = {
    &engine,
#ifdef BEFORE
    &before,
#endif
#define X(name) &name,
    CONTESTANTS
#undef X
};
enum { MANY = sizeof contestants / sizeof contestants[0] };

/* which records are free: the next one and all others, none but the one claimed last, none, or those of every third number; in the last the
 * others that are not linked are retired, and some of them held */
enum { ALL, LAST_ALONE, NONE, SOME, SITUATIONS };
static const char *const situations[] = {"all free", "the one claimed last alone", "none free", "a third free, a third retired"};

static const struct Size {
    uint32_t entries, records, producers;
} sizes[] = {{2, 64, 16}, {2, 2, 1}};

static double of_search[MANY]; /* ns, with a third of the records free, on the first store */
static volatile uint32_t sink;

static uint32_t *record(uint32_t *s, uint32_t r) { return s + s[5] + r * (3 * s[0] + 4); }

static uint32_t use_of(int situation, uint32_t r, uint32_t last) {
    if (situation == ALL || (situation == LAST_ALONE && r == last)) return 0;
    return situation == SOME && r % 3 != 2 ? (r % 3 ? 3 : 0) : 2;
}

/* a store in range: the producers hold the first records and all stand in one phase */
static void prepare(uint32_t *s, size_t n, const struct Size *z, int situation, uint32_t phase, uint32_t steps) {
    memset(s, 0, n * 4);
    if (intake_open(s, n, z->entries, z->records, z->producers, 1000) != INTAKE_OK) exit(1);
    for (uint32_t r = 0; r < z->records; r++) {
        record(s, r)[PLACE] = r + 1;
        record(s, r)[USE] = use_of(situation, r, s[LAST_CLAIMED] - 1);
    }
    for (uint32_t t = 1; t <= z->producers; t++) {
        uint32_t *w = s + THREADS + 8 * t;
        w[PHASE] = phase;
        w[HELD] = 1 + (t - 1) % z->records;
        w[STEPS] = steps;
    }
}

/* ns of a step that is refused with a number */
static double refused(const struct Contestant *c, uint32_t *s, size_t n, uint32_t number) {
    uint32_t none[1], reply[4];
    double begin = now();
    for (int k = 0; k < CALLS; k++)
        if (c->step(s, n, 1, none, 0, 0, reply) != number) exit(1);
    return (now() - begin) / CALLS;
}

/* ns of a search that is called by itself */
static double searching(const struct Contestant *c, uint32_t *s) {
    double begin = now();
    for (int k = 0; k < CALLS; k++) sink += c->search(s);
    return (now() - begin) / CALLS;
}

static void put_back(uint32_t *s, const uint32_t *ready, uint32_t r) {
    size_t size = 3 * (size_t)s[0] + 4, at = s[5] + r * size;
    s[LAST_CLAIMED] = ready[LAST_CLAIMED];
    memcpy(s + THREADS + 8, ready + THREADS + 8, 32);
    memcpy(s + at, ready + at, size * 4);
}

/* ns of a step that claims record r */
static double claiming(const struct Contestant *c, uint32_t *s, const uint32_t *ready, size_t n, uint32_t r) {
    uint32_t none[1], reply[4];
    double begin = now(), middle, end;
    for (int k = 0; k < CALLS; k++) {
        put_back(s, ready, r);
        sink += s[LAST_CLAIMED];
    }
    middle = now();
    for (int k = 0; k < CALLS; k++) {
        put_back(s, ready, r);
        if (c->step(s, n, 1, none, 0, 0, reply) != INTAKE_GOING) exit(1);
    }
    end = now();
    return ((end - middle) - (middle - begin)) / CALLS;
}

/* how many calls a host made, and how many of them searched */
struct Made {
    uint32_t calls, searches;
};

static void step_on(const struct Contestant *c, uint32_t *s, size_t n, uint32_t t, struct Made *made) {
    uint32_t none[1], reply[4], phase = s[THREADS + 8 * t];
    made->calls++;
    made->searches += t > 0 && (phase == 4 || phase == 10);
    sink += c->step(s, n, t, none, 0, 0, reply);
}

/* random calls, the consumer's a third of them */
static struct Made host(const struct Contestant *c, uint32_t *s, size_t n, const struct Size *z) {
    struct Made made = {0, 0};
    uint32_t reply[4];
    uint64_t state = SEED;
    if (intake_open(s, n, z->entries, z->records, z->producers, 1000000) != INTAKE_OK) exit(1);
    for (int k = 0; k < 20 * CALLS; k++) {
        uint32_t t = draw(&state, 3) ? 1 + draw(&state, z->producers) : 0;
        if (s[THREADS + 8 * t] != 0) {
            if (t == 0)
                for (uint32_t other = 1; other <= z->producers; other++)
                    if (intake_in_the_way(s, other)) step_on(c, s, n, other, &made);
            step_on(c, s, n, t, &made);
        } else if (t == 0) {
            sink += intake_start_dequeue(s, n);
            made.calls++;
        } else if (intake_has_room(s)) {
            sink += intake_start_enqueue(s, n, t, 7, reply);
            made.calls++;
        }
    }
    return made;
}

static void measure(const struct Size *z, int situation) {
    size_t n = INTAKE_WORDS(z->entries, z->records, z->producers);
    uint32_t *s = malloc(n * 4), *ready = malloc(n * 4), none[1], reply[4], number = situation == NONE ? 8 : 9;
    uint32_t claimed = 0; /* by the first contestant; all must claim the same record */
    double without[MANY] = {0}, with[MANY] = {0}, alone[MANY] = {0}, in[2][MANY] = {{0}};
    if (!s || !ready) exit(1);
    for (int round = 0; round < ROUNDS; round++)
        for (int c = 0; c < MANY; c++) {
            prepare(s, n, z, situation, 3, FULL);
            keep_least(&without[c], refused(contestants[c], s, n, 9));
            prepare(s, n, z, situation, 4, FULL);
            keep_least(&with[c], refused(contestants[c], s, n, number));
            if (contestants[c]->search) keep_least(&alone[c], searching(contestants[c], s));
            for (int k = 0; k < 2 && situation != NONE; k++) {
                prepare(s, n, z, situation, k ? 10 : 4, 0);
                memcpy(ready, s, n * 4);
                if (contestants[c]->step(s, n, 1, none, 0, 0, reply) != INTAKE_GOING) exit(1);
                if (!claimed) claimed = s[LAST_CLAIMED];
                if (claimed != s[LAST_CLAIMED] || (contestants[c]->search && claimed != contestants[c]->search(ready))) exit(1);
                keep_least(&in[k][c], claiming(contestants[c], s, ready, n, claimed - 1));
            }
        }
    for (int c = 0; c < MANY; c++) {
        double search = contestants[c]->search ? alone[c] : with[c] - without[c];
        if (situation == SOME && z == sizes) of_search[c] = search;
        printf("%-32s%-30s%10.1f%10.1f%8.2f", c ? "" : situations[situation], contestants[c]->label, without[c], search,
               (with[0] - without[0]) / search);
        for (int k = 0; k < 2 && situation != NONE; k++) printf("%10.1f%6.0f %%", in[k][c], 100 * search / in[k][c]);
        printf("\n");
    }
    free(s);
    free(ready);
}

/* the time of a host's calls beside that of its searches, each of which is as long as where a third of the records is free */
static void measure_host(const struct Size *z) {
    size_t n = INTAKE_WORDS(z->entries, z->records, z->producers);
    uint32_t *s = malloc(n * 4);
    double took[MANY] = {0};
    struct Made made = {0, 0};
    if (!s) exit(1);
    for (int round = 0; round < 20; round++)
        for (int c = 0; c < MANY; c++) {
            double begin = now();
            made = host(contestants[c], s, n, z);
            keep_least(&took[c], now() - begin);
        }
    for (int c = 0; c < MANY; c++)
        printf("%-32s%-30s%10.1f%10.1f%8.1f %%\n", c ? "" : "a host's calls", contestants[c]->label, took[c] / made.calls, of_search[c],
               100 * made.searches * of_search[c] / took[c]);
    printf("%u calls, of which %u search\n", made.calls, made.searches);
    free(s);
}

int main(void) {
    for (size_t k = 0; k < sizeof sizes / sizeof sizes[0]; k++) {
        printf("%u entries, %u records, %u producers\n%-62s%10s%10s%8s%10s%8s%10s%8s\n", sizes[k].entries, sizes[k].records, sizes[k].producers, "ns",
               "without", "search", "ratio", "phase 4", "search", "phase 10", "search");
        for (int situation = 0; situation < SITUATIONS; situation++) measure(&sizes[k], situation);
    }
    measure_host(&sizes[0]);
    return 0;
}
