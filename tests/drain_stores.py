"""Drain areas and buffers (document 02, U5) for calls on stores that no engine wrote."""

import intake_model as im

LIMITS = (0, 1, 2, 3, 64, 65, im.U32)  # what a start drain may name, in range and out of it


def area(rng, M, phase):
    """The words of a drain area in range beside a consumer in a phase: of a dequeue, or of a drain with no item, with some,
    or with as many as its limit."""
    limit = 0 if phase == 0 or rng.random() < 0.4 else rng.choice((1, 1, 2, 3, 64, rng.randint(1, 64)))
    count = rng.choice((0, 0, max(limit, 1) - 1, limit, rng.randint(0, limit)))
    return [limit, count, *pairs(rng, M, count), *[0] * 2 * (im.MOST_ITEMS - count)]


def pairs(rng, M, count):
    """The words of so many pairs, ranged as an entry's."""
    return [word for _ in range(count) for word in (rng.randint(0, M), rng.getrandbits(32))]


def draining(rng, words):
    """The words, whose drain area comes last, with another area in range, and another flag in phases 6 to 8."""
    words = words[: im.drain_at(*words[:3])] + area(rng, words[3], words[im.CONTENTS])
    if words[im.CONTENTS] >= 6:
        words[im.CONTENTS + im.SCANNED] = rng.randint(0, 1)
    return words


def buffer(rng, items):
    """A buffer and a word named in it, for a drain that may end with so many items: with room for them, for a word less or
    more, or ending before the named word."""
    named = rng.choice((0, 0, 1, 5, rng.randint(0, 20)))
    length = max(0, named + 2 * items + rng.choice((0, 0, -1, -1, 1, 7)))
    if rng.random() < 0.1:
        named = rng.choice((length, length + 1, 2**31, im.U32))
    return tuple(rng.getrandbits(32) for _ in range(length)), named


def fresh(call):
    """The call with a copy of its buffer, which it may write to."""
    return (*call[:2], list(call[2]), call[3]) if call[0] == 's' and len(call) > 2 else call


def lent_step(rng, words, t):
    """A step of a thread on these words, lent such a buffer: the consumer may mark an item more before it ends."""
    items = 0
    if t == 0 and im.admission(words) == 0:
        items = im.drain_word(words, im.COUNT) + rng.choice((0, words[im.CONTENTS] == 7))
    return ('s', t, *buffer(rng, items))
