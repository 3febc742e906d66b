"""A store in range with some words that are given. The others are drawn."""

import intake_model as im


def record_at(sizes, number):
    """The first word of the record with this stored number."""
    B, _, P, _ = sizes
    return im.CONTENTS + im.THREAD_WORDS * (P + 1) + (number - 1) * im.record_words(B)


def item(rng, M):
    """A call number and a value."""
    return rng.randint(0, M), rng.getrandbits(32)


def store(rng, sizes, consumer, contents, parts):
    """A store with these words of the consumer, words 6 to 9 (tail is drawn where it is None), and (record, part, word) of
    records."""
    B, N, P, M = sizes
    words = [0] * im.needed_words(B, N, P)
    im.open_store(words, *sizes)
    for number in range(1, N + 1):
        drawn = [rng.randint(0, 4), rng.randint(0, N), rng.randint(0, N), rng.randint(0, 3)]
        for _ in range(B):
            drawn += [rng.randint(0, 2), *item(rng, M)]
        first = record_at(sizes, number)
        words[first : first + len(drawn)] = drawn
    for number, part, word in parts:
        words[record_at(sizes, number) + part] = word
    tail, *others = contents
    words[im.TAIL : im.STARTS] = rng.randint(0, M) if tail is None else tail, *others
    words[im.CONTENTS : im.CONTENTS + im.THREAD_WORDS] = consumer
    return words
