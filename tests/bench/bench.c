/* Times a call of the engine beside the same call in C and a bare pass over the store's words, all in one run: on the smallest, a middle and
 * the largest store, in rounds in which each contestant has its turn. A contestant's figure is its best round. The calls of each come from
 * the same draws, and its words must be the engine's at the end of each round. Then forty waiting items, taken by one drain and by forty
 * dequeues, in the same manner. */
#include <stdio.h>
#include <stdlib.h>
#include <string.h>

#include "../../include/intake.h"
#include "bench.h"
#include "rounds.h"

#define X(name) extern const struct Contestant name;
CONTESTANTS
#undef X
#define X(name) extern const struct Pass name;
PASSES
#undef X

static const struct Contestant engine = {"engine", intake_start_enqueue, intake_start_dequeue, intake_start_drain, intake_step, 0};
#define X(name) , &name
static const struct Contestant *const contestants[] = {&engine CONTESTANTS}; /* the engine is the first */
#undef X
#define X(name) &name,
static const struct Pass *const passes[] = {PASSES};
#undef X

enum { CALLED = sizeof contestants / sizeof contestants[0], PASSED = sizeof passes / sizeof passes[0], STORES = 3, ROUNDS = 30 };
enum { FEW = 8, WAITING = 40, TIMES = 20, BY_DRAIN = 0, BY_DEQUEUES, WAYS };

static const struct Size {
    const char *name;
    uint32_t entries, records, producers, calls;
} sizes[STORES] = {{"smallest", 2, 2, 1, 100000}, {"middle", 16, 16, 8, 25000}, {"largest", 64, 64, 16, 6000}};

static volatile uint32_t sink;

/* ns a call; each thread starts when it is idle, and a fourth of the consumer's calls are drains of a few items */
static double time_calls(const struct Contestant *c, uint32_t *s, size_t n, uint32_t producers, uint32_t calls) {
    uint32_t busy[17] = {0}, buffer[2 * FEW] = {0}, reply[4] = {0};
    uint64_t state = SEED;
    double begin = now();
    for (uint32_t k = 0; k < calls; k++) {
        uint32_t t = draw(&state, 3) ? draw(&state, producers + 1) : 0, answer;
        if (!busy[t]) {
            answer = t ? c->start_enqueue(s, n, t, k, reply) : draw(&state, 4) ? c->start_dequeue(s, n) : c->start_drain(s, n, FEW);
            busy[t] = answer == INTAKE_OK;
        } else {
            answer = c->step(s, n, t, buffer, 2 * FEW, 0, reply);
            if (answer > INTAKE_GOING) busy[t] = 0;
        }
        sink += answer;
    }
    return (now() - begin) / calls;
}

static double time_passes(const struct Pass *p, const uint32_t *s, size_t n, uint32_t calls) {
    double begin = now();
    for (uint32_t k = 0; k < calls; k++) sink += p->pass(s, n);
    return (now() - begin) / calls;
}

/* what one way of taking the waiting items cost: calls, accepted steps among them, items, and their words */
struct Taken {
    uint32_t calls, steps, items, words[2 * WAITING];
};

/* takes what waits, up to WAITING items, by one drain or by dequeues */
static struct Taken take(const struct Contestant *c, uint32_t *s, size_t n, int way) {
    struct Taken taken = {0};
    uint32_t reply[4] = {0}, answer;
    while (taken.items < WAITING) {
        if ((way == BY_DRAIN ? c->start_drain(s, n, WAITING) : c->start_dequeue(s, n)) != INTAKE_OK) exit(1);
        do {
            answer = c->step(s, n, 0, taken.words, 2 * WAITING, 0, reply);
            taken.calls++;
        } while (answer == INTAKE_GOING);
        taken.calls++;
        taken.steps += reply[2];
        if (way == BY_DEQUEUES && answer == INTAKE_ITEM) memcpy(taken.words + 2 * taken.items++, reply, 8);
        else if (way == BY_DRAIN && answer == INTAKE_DRAINED) taken.items += reply[0];
        else exit(1);
    }
    return taken;
}

static double of_calls[CALLED][STORES], of_passes[PASSED][STORES], of_waiting[CALLED][STORES][WAYS];
static struct Taken first_taken[STORES][WAYS];

static void measure(int k) {
    const struct Size z = sizes[k];
    size_t n = INTAKE_WORDS(z.entries, z.records, z.producers);
    uint32_t *fresh = calloc(n, 4), *a = malloc(n * 4), *b = malloc(n * 4);
    if (!fresh || !a || !b || intake_open(fresh, n, z.entries, z.records, z.producers, 1000000) != INTAKE_OK) exit(1);
    for (int round = 0; round < ROUNDS; round++) {
        for (int c = 0; c < CALLED; c++) {
            uint32_t *s = c == 0 ? a : b;
            memcpy(s, fresh, n * 4);
            keep_least(&of_calls[c][k], time_calls(contestants[c], s, n, z.producers, z.calls));
            if (memcmp(a, s, n * 4) != 0) {
                printf("%s: the engine's words and those of %s differ\n", z.name, contestants[c]->label);
                exit(1);
            }
        }
        for (int p = 0; p < PASSED; p++) keep_least(&of_passes[p][k], time_passes(passes[p], a, n, z.calls));
    }
    free(fresh);
    free(a);
    free(b);
}

/* a store in which the items wait */
static void fill(uint32_t *s, size_t n, const struct Size *z) {
    uint32_t none[1], reply[4] = {0}, answer;
    if (intake_open(s, n, z->entries, z->records, z->producers, 1000000) != INTAKE_OK) exit(1);
    for (uint32_t k = 0; k < WAITING; k++) {
        if (intake_start_enqueue(s, n, 1 + k % z->producers, k, reply) != INTAKE_OK) exit(1);
        while ((answer = intake_step(s, n, 1 + k % z->producers, none, 0, 0, reply)) == INTAKE_GOING) {}
        if (answer != INTAKE_END) exit(1);
    }
}

/* µs to take the waiting items, each way; the smallest store cannot hold them */
static void measure_waiting(int k) {
    const struct Size z = sizes[k];
    size_t n = INTAKE_WORDS(z.entries, z.records, z.producers);
    uint32_t *full = malloc(n * 4), *s = malloc(n * 4);
    if (!full || !s) exit(1);
    fill(full, n, &z);
    for (int round = 0; round < ROUNDS; round++)
        for (int c = 0; c < CALLED; c++)
            for (int way = 0; way < WAYS; way++) {
                double took = 0;
                struct Taken taken;
                for (int again = 0; again < TIMES; again++) {
                    memcpy(s, full, n * 4);
                    double begin = now();
                    taken = take(contestants[c], s, n, way);
                    took += now() - begin;
                }
                keep_least(&of_waiting[c][k][way], took / TIMES / 1000);
                if (round == 0 && c == 0) first_taken[k][way] = taken;
                if (memcmp(&taken, &first_taken[k][way], sizeof taken) != 0 ||
                    memcmp(taken.words, first_taken[k][BY_DRAIN].words, sizeof taken.words) != 0) {
                    printf("%s: %s takes other items, or in other steps\n", z.name, contestants[c]->label);
                    exit(1);
                }
            }
    free(full);
    free(s);
}

static void print_waiting(void) {
    printf("\n%-44s", "forty waiting items, µs: one drain");
    for (int k = 1; k < STORES; k++) printf("%12s%12s%8s", sizes[k].name, "dequeues", "ratio");
    printf("\n");
    for (int c = 0; c < CALLED; c++) {
        printf("%-10s%-34s", "", contestants[c]->label);
        for (int k = 1; k < STORES; k++) {
            const double *took = of_waiting[c][k];
            printf("%12.1f%12.1f%8.2f", took[BY_DRAIN], took[BY_DEQUEUES], took[BY_DRAIN] / took[BY_DEQUEUES]);
        }
        printf("\n");
    }
    for (int k = 1; k < STORES; k++)
        printf("%s: one drain %u calls, of them %u steps; forty dequeues %u calls, of them %u steps\n", sizes[k].name,
               first_taken[k][BY_DRAIN].calls, first_taken[k][BY_DRAIN].steps, first_taken[k][BY_DEQUEUES].calls,
               first_taken[k][BY_DEQUEUES].steps);
}

static void row(const char *what, const char *label, const double took[STORES]) {
    printf("%-10s%-34s", what, label);
    for (int k = 0; k < STORES; k++) printf("%12.1f%8.2f", took[k], of_calls[0][k] / took[k]);
    printf("\n");
}

int main(void) {
    for (int k = 0; k < STORES; k++) measure(k);
    printf("%-44s", "ns, then engine / this one");
    for (int k = 0; k < STORES; k++) printf("%12s%8s", sizes[k].name, "ratio");
    printf("\n");
    for (int c = 0; c < CALLED; c++) row("call", contestants[c]->label, of_calls[c]);
    for (int p = 0; p < PASSED; p++) row("bare pass", passes[p]->label, of_passes[p]);
    for (int k = 1; k < STORES; k++) measure_waiting(k);
    print_waiting();
    return 0;
}
