/* The rules of the intake in C, with the same admission: the yardstick for the engine's speed. Written from the paper by hand; bench.c
 * also holds it to the engine word for word. The Makefile compiles it once for each contestant: ROW picks how the records are looked at,
 * CONTESTANT is the name that bench.c knows it by, LABEL the one that it prints. */
#include "bench.h"

enum { TAIL = 6, TAIL_RECORD, HEAD_RECORD, HEAD_POSITION, STARTS, LAST_CLAIMED, ALL_HANDLED };
enum { PHASE, CALL, VALUE, POSITION, HELD, CLAIMED, BACKED, STEPS };
enum { CURSOR_RECORD = 1, CURSOR_POSITION, FOUND_RECORD, FOUND_POSITION, ITEM_NUMBER, ITEM_VALUE, SCANNED = CURSOR_POSITION };
enum { PLACE, NEXT, PREV, USE };
enum { LIMIT, COUNT, PAIRS };
enum { MOST_PLACE = 500002, MOST_STEPS = 100000000, MOST_ITEMS = 64, DRAIN_WORDS = 130 };

typedef struct {
    uint32_t *s, B, N, P, M, first, size;
    uint32_t *drain;
} Store;

/* the words of a buffer from the named one on; fewer than none if it ends before that */
typedef struct {
    uint32_t *to;
    int64_t words;
} Room;

static uint32_t *record(Store *z, uint32_t stored) { return z->s + z->first + (size_t)(stored - 1) * z->size; }
static uint32_t *thread(Store *z, uint32_t t) { return z->s + 16 + 8 * (size_t)t; }

static int number_ok(const Store *z, uint32_t x) { return x <= z->M; }
static int link_ok(const Store *z, uint32_t x) { return x <= z->N; }

static int producer_ok(const Store *z, const uint32_t *w) {
    uint32_t p = w[PHASE];
    if (p == 1 || p > 11) return 0; /* a start takes the position: no producer is in phase 1 */
    if (p == 0) return (w[1] | w[2] | w[3] | w[4] | w[5] | w[6] | w[7]) == 0;
    if (!number_ok(z, w[CALL]) || w[STEPS] > MOST_STEPS) return 0;
    if (!number_ok(z, w[POSITION]) || !link_ok(z, w[HELD])) return 0;
    if (p == 5 || p == 11 ? !link_ok(z, w[CLAIMED]) : w[CLAIMED] != 0) return 0;
    return p >= 10 ? w[BACKED] == 0 : w[BACKED] <= 1;
}

static int consumer_ok(const Store *z, const uint32_t *w) {
    uint32_t p = w[PHASE];
    if (p > 8 || w[STEPS] > (p ? MOST_STEPS : 0)) return 0;
    int cursor = p >= 3 && p <= 5, found = p >= 5 && p <= 7, item = p >= 7;
    if (cursor ? !link_ok(z, w[1]) || !number_ok(z, w[2]) : w[1] != 0 || w[SCANNED] > (p >= 6)) return 0;
    if (found ? !link_ok(z, w[3]) || !number_ok(z, w[4]) : (w[3] | w[4]) != 0) return 0;
    return item ? number_ok(z, w[5]) : (w[5] | w[6]) == 0;
}

static int drain_ok(const Store *z) {
    const uint32_t *d = z->drain;
    if (d[LIMIT] > (z->s[16] ? MOST_ITEMS : 0) || d[COUNT] > d[LIMIT]) return 0;
    uint32_t bad = 0, in_use = PAIRS + 2 * d[COUNT];
    for (uint32_t i = PAIRS; i < in_use; i += 2) bad |= d[i] > z->M;
    for (uint32_t i = in_use; i < DRAIN_WORDS; i++) bad |= d[i];
    return !bad;
}

#ifdef ROW
/* What C is fast at: one row of bounds for a whole record, two records at a time, no branch in the loop. SSE2 compares signed numbers only:
 * ROW 2 turns the top bit of row and words, so that no compiler need do it for the row again and again. Records of few entries are looked at
 * one by one, since a row costs more than it saves there. */
#define TURNED (ROW == 2 ? UINT32_C(0x80000000) : 0)
#if ROW == 2
typedef int32_t Bound;
#else
typedef uint32_t Bound;
#endif
static uint32_t pair_out_of_range(const uint32_t *a, const uint32_t *b, const Bound *row, uint32_t size) {
    uint32_t bad = 0;
    for (uint32_t i = 0; i < size; i++) bad |= ((Bound)(a[i] ^ TURNED) > row[i]) | ((Bound)(b[i] ^ TURNED) > row[i]);
    return bad;
}

static int rows_ok(Store *z) {
    Bound row[4 + 3 * 64];
    uint32_t bad = 0, half = z->N / 2;
    row[PLACE] = (Bound)(MOST_PLACE ^ TURNED);
    row[NEXT] = row[PREV] = (Bound)(z->N ^ TURNED);
    row[USE] = (Bound)(3 ^ TURNED);
    for (uint32_t i = 0; i < z->B; i++) {
        row[4 + 3 * i] = (Bound)(2 ^ TURNED);
        row[5 + 3 * i] = (Bound)(z->M ^ TURNED);
        row[6 + 3 * i] = (Bound)(UINT32_MAX ^ TURNED);
    }
    for (uint32_t r = 1; r <= z->N - half; r++) bad |= pair_out_of_range(record(z, r), record(z, r + half), row, z->size);
    return !bad;
}
#endif

/* As the paper reads: entry by entry, by threes. */
static int record_ok(const Store *z, const uint32_t *w) {
    uint32_t bad = (w[PLACE] > MOST_PLACE) | (w[NEXT] > z->N) | (w[PREV] > z->N) | (w[USE] > 3);
    for (uint32_t i = 0; i < z->B; i++) bad |= (w[4 + 3 * i] > 2) | (w[5 + 3 * i] > z->M);
    return !bad;
}

static int records_ok(Store *z) {
#ifdef ROW
    if (z->B > 4) return rows_ok(z);
#endif
    for (uint32_t r = 1; r <= z->N; r++)
        if (!record_ok(z, record(z, r))) return 0;
    return 1;
}

static Store shape(uint32_t *s) { return (Store){s, s[0], s[1], s[2], s[3], 16 + 8 * (s[2] + 1), 3 * s[0] + 4, 0}; }

static uint32_t admit(Store *z, uint32_t *s, size_t words) {
    if (words < 16) return 2;
    *z = shape(s);
    if (z->B < 2 || z->B > 64 || z->N < 2 || z->N > 64 || z->P < 1 || z->P > 16 || z->M < 1 || z->M > 1000000) return 3;
    if (words < z->first + (size_t)z->N * z->size + DRAIN_WORDS) return 2;
    z->drain = record(z, z->N + 1);
    if (s[4] != 16 || s[5] != z->first || s[TAIL] > z->M || s[TAIL_RECORD] < 1 || s[TAIL_RECORD] > z->N || s[HEAD_RECORD] < 1 ||
        s[HEAD_RECORD] > z->N || s[HEAD_POSITION] > z->M || s[STARTS] > z->M || s[LAST_CLAIMED] < 1 || s[LAST_CLAIMED] > z->N ||
        s[ALL_HANDLED] > (s[16] == 3 || s[16] == 4) || (s[13] | s[14] | s[15]) != 0)
        return 3;
    if (!consumer_ok(z, thread(z, 0))) return 3;
    for (uint32_t t = 1; t <= z->P; t++)
        if (!producer_ok(z, thread(z, t))) return 3;
    return records_ok(z) && drain_ok(z) ? 0 : 3;
}

static void clear(uint32_t *w, uint32_t n) {
    for (uint32_t i = 0; i < n; i++) w[i] = 0;
}

static uint32_t end(uint32_t *w, uint32_t answer) {
    clear(w, 8);
    return answer;
}

static uint32_t choose(const Store *z, uint32_t L, uint32_t place) {
    uint32_t e = z->B * place;
    return L >= e ? 3 : L + z->B < e ? 7 : 8;
}

/* the entry at position p of a record, or none if the index leaves it */
static uint32_t *entry(Store *z, uint32_t *r, uint32_t p) {
    uint32_t e = z->B * r[PLACE];
    return p < e && e <= p + z->B ? r + 4 + 3 * (p + z->B - e) : 0;
}

/* the retired records that producers hold, as bits, and the greatest place of one */
typedef struct {
    uint64_t records;
    uint32_t place;
} Kept;

static void keep(Store *z, Kept *k, uint32_t stored) {
    if (!stored) return;
    uint32_t *r = record(z, stored);
    if (r[USE] != 3) return;
    k->records |= UINT64_C(1) << (stored - 1);
    if (r[PLACE] > k->place) k->place = r[PLACE];
}

/* the free records as bits: of use 0, or retired where no producer holds it or a retired record of greater place. A record is free from the
 * least place of its use on, if it is not a retired one that is held. */
static uint64_t free_map(Store *z) {
    Kept k = {0, 0};
    for (uint32_t t = 1; t <= z->P; t++) {
        keep(z, &k, thread(z, t)[HELD]);
        keep(z, &k, thread(z, t)[CLAIMED]);
    }
    const uint32_t least[4] = {0, UINT32_MAX, UINT32_MAX, k.place};
    uint64_t map = 0;
    for (uint32_t r = z->N; r > 0; r--) {
        const uint32_t *w = record(z, r);
        map = 2 * map + (w[PLACE] < least[w[USE]]);
    }
    return (UINT64_MAX >> (64 - z->N)) & ~(map | k.records);
}

/* the first free record after the one claimed last, past the end to the first, so that the one claimed last comes last; or 0 */
static uint32_t next_free(Store *z) {
    uint64_t map = free_map(z), above = map >> (z->s[LAST_CLAIMED] - 1) >> 1;
    if (above) return z->s[LAST_CLAIMED] + (uint32_t)__builtin_ctzll(above) + 1;
    return map ? (uint32_t)__builtin_ctzll(map) + 1 : 0;
}

static int claim(Store *z, uint32_t *w, uint32_t phase) {
    uint32_t r = next_free(z);
    if (!r) return 0;
    clear(record(z, r), z->size);
    record(z, r)[USE] = 1;
    z->s[LAST_CLAIMED] = w[CLAIMED] = r;
    w[PHASE] = phase;
    return 1;
}

static int link_claimed(Store *z, uint32_t *w) {
    if (!w[HELD] || !w[CLAIMED]) return 0;
    uint32_t *h = record(z, w[HELD]), *c = record(z, w[CLAIMED]);
    if (h[NEXT] == 0) {
        uint32_t place = h[PLACE] + 1;
        if (place > MOST_PLACE) return 0;
        h[NEXT] = w[CLAIMED];
        c[USE] = 2;
        c[PREV] = w[HELD];
        c[PLACE] = place;
    } else {
        c[USE] = 0;
    }
    return 1;
}

static uint32_t produce(Store *z, uint32_t t) {
    uint32_t *w = thread(z, t), *s = z->s, *h = w[HELD] ? record(z, w[HELD]) : 0, *e, L = w[POSITION];
    switch (w[PHASE]) {
    case 2:
        w[HELD] = s[TAIL_RECORD];
        w[PHASE] = choose(z, L, record(z, w[HELD])[PLACE]);
        return 100;
    case 3:
        if (!h) return 9;
        w[PHASE] = h[NEXT] ? 6 : 4;
        return 100;
    case 4:
        return claim(z, w, 5) ? 100 : 8;
    case 5:
        if (!link_claimed(z, w)) return 9;
        w[CLAIMED] = 0;
        w[PHASE] = 6;
        return 100;
    case 6:
        if (!h) return 9;
        if (s[TAIL_RECORD] == w[HELD]) {
            if (!h[NEXT]) return 9;
            s[TAIL_RECORD] = h[NEXT];
        }
        w[PHASE] = 2;
        return 100;
    case 7:
        if (!h || !h[PREV]) return 9;
        w[HELD] = h[PREV];
        w[BACKED] = 1;
        w[PHASE] = choose(z, L, record(z, w[HELD])[PLACE]);
        return 100;
    case 8:
        if (!h || !(e = entry(z, h, L))) return 9;
        e[1] = w[CALL];
        e[2] = w[VALUE];
        w[PHASE] = 9;
        return 100;
    case 9:
        if (!h || !(e = entry(z, h, L))) return 9;
        e[0] = 1;
        if (e == h + 7 && !w[BACKED]) {
            w[PHASE] = 10;
            return 100;
        }
        return end(w, 101);
    case 10:
        return claim(z, w, 11) ? 100 : end(w, 101);
    default:
        return link_claimed(z, w) ? end(w, 101) : 9;
    }
}

/* the record behind r and its first position; 0 if a link or a number is not there */
static int cross(Store *z, const uint32_t *r, uint32_t *to, uint32_t *at) {
    if (!r[NEXT]) return 0;
    uint32_t place = record(z, r[NEXT])[PLACE];
    if (!place || (uint64_t)z->B * (place - 1) > z->M) return 0;
    *to = r[NEXT];
    *at = z->B * (place - 1);
    return 1;
}

/* the record behind the head record becomes head record, and the old one is retired */
static int leave_head(Store *z) {
    uint32_t *s = z->s, *r = record(z, s[HEAD_RECORD]);
    if (!cross(z, r, &s[HEAD_RECORD], &s[HEAD_POSITION])) return 0;
    r[USE] = 3;
    return 1;
}

/* a drain ends with its first n items */
static uint32_t hand_over(Store *z, uint32_t n, Room room, uint32_t reply[4]) {
    for (uint32_t i = 0; i < 2 * n; i++) room.to[i] = z->drain[PAIRS + i];
    clear(z->drain, DRAIN_WORDS);
    reply[0] = n;
    reply[1] = 0;
    return end(thread(z, 0), 104);
}

static int fits(uint32_t n, Room room) { return room.words >= 2 * (int64_t)n; }

/* where a dequeue answers empty */
static uint32_t answer_empty(Store *z, Room room, uint32_t reply[4]) {
    uint32_t n = z->drain[COUNT];
    if (z->drain[LIMIT] && !fits(n, room)) return 15;
    z->s[ALL_HANDLED] = 0;
    return z->drain[LIMIT] ? hand_over(z, n, room, reply) : end(thread(z, 0), 102);
}

/* whether a drain with n items ends where a dequeue replies its item */
static int ends(Store *z, uint32_t n) { return z->drain[LIMIT] && (n == z->drain[LIMIT] || thread(z, 0)[SCANNED]); }

/* where a dequeue replies its item; n items fit if they end a drain */
static uint32_t give(Store *z, uint32_t n, Room room, uint32_t reply[4]) {
    uint32_t *w = thread(z, 0);
    if (ends(z, n)) return hand_over(z, n, room, reply);
    if (z->drain[LIMIT]) {
        clear(w + 1, 6);
        w[PHASE] = 1;
        return 100;
    }
    reply[0] = w[ITEM_NUMBER];
    reply[1] = w[ITEM_VALUE];
    return end(w, 103);
}

/* marks an entry, which is found, and moves the head to a position; a drain keeps the item */
static void mark(Store *z, uint32_t *e, uint32_t head) {
    uint32_t *w = thread(z, 0), *d = z->drain;
    e[0] = 2;
    z->s[HEAD_POSITION] = head;
    if (!d[LIMIT]) return;
    d[PAIRS + 2 * d[COUNT]] = w[ITEM_NUMBER];
    d[PAIRS + 2 * d[COUNT] + 1] = w[ITEM_VALUE];
    d[COUNT]++;
}

static uint32_t consume(Store *z, Room room, uint32_t reply[4]) {
    uint32_t *w = thread(z, 0), *s = z->s, *d = z->drain, *r, *e, to, at, at_head, head;
    switch (w[PHASE]) {
    case 1:
        r = record(z, s[HEAD_RECORD]);
        if (s[HEAD_POSITION] == z->B * r[PLACE]) {
            if (s[HEAD_RECORD] == s[TAIL_RECORD]) return answer_empty(z, room, reply);
            return leave_head(z) ? 100 : 9;
        }
        if (!(e = entry(z, r, s[HEAD_POSITION]))) return 9;
        if (e[0] == 0) {
            if (d[COUNT]) return answer_empty(z, room, reply);
            w[PHASE] = 2;
        } else if (e[0] == 1) {
            w[FOUND_RECORD] = s[HEAD_RECORD];
            w[FOUND_POSITION] = s[HEAD_POSITION];
            w[PHASE] = 6;
        } else {
            if (s[HEAD_POSITION] == z->M) return 9;
            s[HEAD_POSITION]++;
        }
        return 100;
    case 2:
        if (s[TAIL] == s[HEAD_POSITION]) return answer_empty(z, room, reply);
        if (s[HEAD_POSITION] == z->M) return 9;
        w[CURSOR_RECORD] = s[HEAD_RECORD];
        w[CURSOR_POSITION] = s[HEAD_POSITION] + 1;
        w[PHASE] = 3;
        return 100;
    case 3:
        if (!w[CURSOR_RECORD]) return 9;
        r = record(z, w[CURSOR_RECORD]);
        if (w[CURSOR_POSITION] == z->B * r[PLACE]) {
            if (w[CURSOR_RECORD] == s[TAIL_RECORD]) return answer_empty(z, room, reply);
            if (!cross(z, r, &to, &at)) return 9;
            if (s[ALL_HANDLED] && w[CURSOR_RECORD] != s[HEAD_RECORD]) {
                uint32_t prev = r[PREV];
                if (!prev) return 9;
                record(z, prev)[NEXT] = to;
                record(z, to)[PREV] = prev;
                r[USE] = 3;
            }
            w[CURSOR_RECORD] = to;
            w[CURSOR_POSITION] = at;
            s[ALL_HANDLED] = 1;
            return 100;
        }
        if (w[CURSOR_POSITION] == s[TAIL]) return answer_empty(z, room, reply);
        w[PHASE] = 4;
        return 100;
    case 4:
        if (!w[CURSOR_RECORD] || !(e = entry(z, record(z, w[CURSOR_RECORD]), w[CURSOR_POSITION]))) return 9;
        if (e[0] == 1) {
            w[FOUND_RECORD] = w[CURSOR_RECORD];
            w[FOUND_POSITION] = w[CURSOR_POSITION];
            w[CURSOR_RECORD] = s[HEAD_RECORD];
            w[CURSOR_POSITION] = s[HEAD_POSITION];
            s[ALL_HANDLED] = 0;
            w[PHASE] = 5;
        } else {
            if (w[CURSOR_POSITION] == z->M) return 9;
            w[CURSOR_POSITION]++;
            if (e[0] == 0) s[ALL_HANDLED] = 0;
            w[PHASE] = 3;
        }
        return 100;
    case 5:
        if (!w[CURSOR_RECORD]) return 9;
        r = record(z, w[CURSOR_RECORD]);
        if (w[CURSOR_POSITION] == z->B * r[PLACE]) {
            if (!cross(z, r, &to, &at)) return 9;
            w[CURSOR_RECORD] = to;
            w[CURSOR_POSITION] = at;
        } else {
            if (!(e = entry(z, r, w[CURSOR_POSITION]))) return 9;
            if (e[0] == 1) {
                w[FOUND_RECORD] = w[CURSOR_RECORD];
                w[FOUND_POSITION] = w[CURSOR_POSITION];
                w[CURSOR_RECORD] = s[HEAD_RECORD];
                w[CURSOR_POSITION] = s[HEAD_POSITION];
            } else {
                if (w[CURSOR_POSITION] == z->M) return 9;
                w[CURSOR_POSITION]++;
            }
        }
        if (w[CURSOR_POSITION] == w[FOUND_POSITION]) {
            w[CURSOR_RECORD] = 0;
            w[SCANNED] = d[LIMIT] != 0;
            w[PHASE] = 6;
        }
        return 100;
    case 6:
        if (!w[FOUND_RECORD] || !(e = entry(z, record(z, w[FOUND_RECORD]), w[FOUND_POSITION]))) return 9;
        w[ITEM_NUMBER] = e[1];
        w[ITEM_VALUE] = e[2];
        w[PHASE] = 7;
        return 100;
    case 7:
        if (!w[FOUND_RECORD] || !(e = entry(z, record(z, w[FOUND_RECORD]), w[FOUND_POSITION]))) return 9;
        at_head = w[FOUND_POSITION] == s[HEAD_POSITION];
        if ((at_head && s[HEAD_POSITION] == z->M) || (d[LIMIT] && d[COUNT] == d[LIMIT])) return 9;
        head = s[HEAD_POSITION] + at_head;
        if (at_head && head == z->B * record(z, s[HEAD_RECORD])[PLACE] && s[HEAD_RECORD] != s[TAIL_RECORD]) {
            mark(z, e, head);
            w[FOUND_RECORD] = w[FOUND_POSITION] = 0;
            w[PHASE] = 8;
            return 100;
        }
        if (ends(z, d[COUNT] + 1) && !fits(d[COUNT] + 1, room)) return 15;
        mark(z, e, head);
        return give(z, d[COUNT], room, reply);
    default:
        if (!cross(z, record(z, s[HEAD_RECORD]), &to, &at)) return 9;
        if (ends(z, d[COUNT]) && !fits(d[COUNT], room)) return 15;
        leave_head(z);
        return give(z, d[COUNT], room, reply);
    }
}

static uint32_t start_enqueue(uint32_t *s, size_t words, uint32_t t, uint32_t value, uint32_t reply[4]) {
    Store z;
    uint32_t no = admit(&z, s, words);
    if (no) return no;
    if (t < 1 || t > z.P) return 4;
    uint32_t *w = thread(&z, t);
    if (w[PHASE]) return 5;
    if (s[STARTS] == z.M) return 6;
    if (s[TAIL] == z.M) return 9;
    w[PHASE] = 2;
    reply[0] = w[CALL] = ++s[STARTS];
    w[VALUE] = value;
    w[POSITION] = s[TAIL]++;
    reply[2] = w[STEPS] = 1;
    return 0;
}

static uint32_t start_dequeue(uint32_t *s, size_t words) {
    Store z;
    uint32_t no = admit(&z, s, words);
    if (no) return no;
    if (s[16]) return 5;
    s[16] = 1;
    return 0;
}

static uint32_t start_drain(uint32_t *s, size_t words, uint32_t limit) {
    Store z;
    uint32_t no = admit(&z, s, words);
    if (no) return no;
    if (s[16]) return 5;
    if (limit < 1 || limit > MOST_ITEMS) return 14;
    s[16] = 1;
    z.drain[LIMIT] = limit;
    return 0;
}

static uint32_t step(uint32_t *s, size_t words, uint32_t t, uint32_t *buffer, size_t buffer_words, uint32_t from, uint32_t reply[4]) {
    Room room = {buffer + (from <= buffer_words ? from : 0), (int64_t)buffer_words - from};
    Store z;
    uint32_t no = admit(&z, s, words);
    if (no) return no;
    if (t > z.P) return 4;
    uint32_t *w = thread(&z, t), steps = w[STEPS], answer;
    if (!w[PHASE]) return 7;
    if (steps == MOST_STEPS) return t && w[PHASE] == 4 && !next_free(&z) ? 8 : 9; /* no step may be added; 8 comes first */
    answer = t ? produce(&z, t) : consume(&z, room, reply);
    if (answer < 100) return answer;
    if (answer == 100) w[STEPS] = steps + 1;
    reply[2] = steps + 1;
    return answer;
}

static uint32_t search(uint32_t *s) {
    Store z = shape(s);
    return next_free(&z);
}

const struct Contestant CONTESTANT = {LABEL, start_enqueue, start_dequeue, start_drain, step, search};
