"""Stores on which the consumer is about to mark an item (phase 7) or to leave the head record (phase 8). Head, found,
next and tail record stand in every relation, with any number of steps. All words are in range; few of the stores are an
engine's."""

import itertools

import drawn_stores
import intake_model as im
import step_counts
from drawn_stores import item

B, N, P = 2, 3, 1
HEAD, OTHER = 2, 3  # record numbers as they are stored


def record_at(number):
    return drawn_stores.record_at((B, N, P, None), number)


def store(rng, M, consumer, head_position, tail_record, parts):
    """A store with these words of the consumer and these (record, part, word) of records. Other words are drawn."""
    return drawn_stores.store(rng, (B, N, P, M), consumer, (None, tail_record, HEAD, head_position), parts)


def marking(rng):
    """Phase 7. The head stands at each position of its record and at its end, or at M. Found is at the head position or
    before it, in the head record, in another of the same place or the next, or in none."""
    stores = []
    relations = itertools.product((8, 9), (0, 1, 2, 4, 5), (0, HEAD, OTHER), (0, 1), (HEAD, OTHER))
    for M, place, found, later, tail_record in relations:
        places = [(HEAD, im.PLACE, place), (OTHER, im.PLACE, place + later)]
        for position in range(max(0, B * (place - 1)), min(B * place, M) + 1):
            for found_position in {position, max(0, position - 1)}:
                consumer = [7, 0, 0, found, found_position, *item(rng, M), step_counts.drawn(rng)]
                stores.append(store(rng, M, consumer, position, tail_record, places))
    return stores


def leaving(rng):
    """Phase 8. Next of the head record is none, the head record itself or another; its place is 0, within M or past it.
    The head position and the tail record are any: phase 8 looks at neither."""
    stores = []
    relations = itertools.product((8, 9), range(N + 1), (0, 1, 2, 5, 6, im.MAX_PLACE), (0, 2, 8))
    for M, following, place, position in relations:
        consumer = [8, 0, 0, 0, 0, *item(rng, M), step_counts.drawn(rng)]
        places = [(following, im.PLACE, place)] if following else []
        parts = places + [(HEAD, im.NEXT, following)]
        stores.append(store(rng, M, consumer, position, rng.choice((HEAD, OTHER)), parts))
    return stores
