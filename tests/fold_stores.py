"""Stores on which the consumer scans (phases 3 and 4), with word 12 0 or 1 (document 02, U6). At the end of the cursor's
record head, tail record, prev and next stand in every relation. All words are in range; few of the stores are an
engine's."""

import itertools

import drawn_stores
import intake_model as im
import step_counts

B, N, P = 2, 4, 1
CURSOR, OTHER, THIRD = 2, 3, 4  # record numbers as they are stored


def record_at(number):
    return drawn_stores.record_at((B, N, P, None), number)


def store(rng, M, consumer, word_12, contents, parts):
    """A store with these words of the consumer, word 12, words 6 to 9 and (record, part, word) of records. Other words are
    drawn."""
    return with_word_12(drawn_stores.store(rng, (B, N, P, M), consumer, contents, parts), word_12)


def with_word_12(words, word):
    """The words with another word 12."""
    return words[: im.ALL_HANDLED] + [word] + words[im.ALL_HANDLED + 1 :]


def scanning(rng, cursor, position):
    """The words of a consumer in phase 3."""
    return [3, cursor, position, 0, 0, 0, 0, step_counts.drawn(rng)]


def crossing(rng):
    """Phase 3 at the end of the cursor's record. Head and tail record are that record or others; prev is none, the cursor's
    record, next or another; next is none, the cursor's record or another; its place is 0, any, at M or past it."""
    stores = []
    heads, tails, links = (CURSOR, OTHER, THIRD), (CURSOR, OTHER), range(N + 1)
    for head, tail_record, before, following, word_12 in itertools.product(heads, tails, links, links, (0, 1)):
        for M, place in ((8, 5), (8, 6), (9, rng.choice((0, 0, im.MAX_PLACE))), (9, rng.randint(1, 5))):
            parts = [(following, im.PLACE, place)] if following else []
            parts += [(CURSOR, im.PLACE, own := rng.randint(0, 3)), (CURSOR, im.PREV, before), (CURSOR, im.NEXT, following)]
            contents = rng.randint(0, M), tail_record, head, rng.randint(0, M)
            stores.append(store(rng, M, scanning(rng, CURSOR, B * own), word_12, contents, parts))
    return stores


def going_on(rng):
    """Phase 3 at a position that is not the end of the cursor's record: at tail, before it or past it; or with no cursor."""
    stores = []
    for M, cursor, place, word_12 in itertools.product((8, 9), (0, CURSOR), (0, 1, 2, 4), (0, 1)):
        for position, tail in itertools.product((0, 1, 3, 5, M), (0, 1, 3, 5, M)):
            if position != B * place:
                contents = tail, rng.choice((CURSOR, OTHER)), rng.choice((CURSOR, OTHER)), rng.randint(0, M)
                parts = [(CURSOR, im.PLACE, place)]
                stores.append(store(rng, M, scanning(rng, cursor, position), word_12, contents, parts))
    return stores


def reading(rng):
    """Phase 4. The entry is in each state; the cursor is in its record, at its end, before it, at M, or in none."""
    stores = []
    relations = itertools.product((8, 9), (0, CURSOR), (0, 1, 2, 5), (0, 1, 2), (0, 1))
    for M, cursor, place, state, word_12 in relations:
        for position in {max(0, B * (place - 1)), max(0, min(B * place - 1, M)), min(B * place, M), M}:
            index = (position - B * (place - 1)) % B
            parts = [(CURSOR, im.PLACE, place), (CURSOR, im.RECORD_HEAD + im.ENTRY_WORDS * index, state)]
            consumer = [4, *scanning(rng, cursor, position)[1:]]
            contents = rng.randint(0, M), rng.choice((CURSOR, OTHER)), rng.choice((CURSOR, OTHER)), rng.randint(0, M)
            stores.append(store(rng, M, consumer, word_12, contents, parts))
    return stores


def relation(words):
    """How the records that a scan looks at stand to each other, as far as they decide something."""
    phase, cursor, position = words[im.CONTENTS : im.CONTENTS + 3]
    word_12, M = words[im.ALL_HANDLED], words[3]
    if phase == 4 or not cursor:
        return phase, word_12, cursor, position == M
    place, following, before = words[record_at(cursor) :][:3]
    if position != B * place:
        return phase, word_12, position == words[im.TAIL]
    if cursor == words[im.TAIL_RECORD]:
        return phase, word_12, 'tail record'
    if not word_12 or cursor == words[im.HEAD_RECORD]:
        return phase, word_12, 'no fold', following == 0
    return phase, word_12, before == 0, following == 0, before == cursor, following == cursor, before == following
