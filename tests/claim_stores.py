"""Stores on which producer 1 is about to claim a record: any record claimed last, any uses, few different places, any records
held, any number of steps."""

import itertools

import intake_model as im
import step_counts

B, M = 2, 9


def claiming(rng, uses, last, most=3, places=range(4)):
    """A store in range with these uses of its records and this word 11. Producer 1 stands in phase 4 or 10. The
    producers, so many at the most, hold records at random; the records have some of these places."""
    N, P = len(uses), rng.randint(1, most)
    words = [0] * im.needed_words(B, N, P)
    im.open_store(words, B, N, P, M)
    words[im.LAST_CLAIMED] = last
    for r, use in enumerate(uses):
        first = words[5] + r * im.record_words(B)
        words[first + im.PLACE], words[first + im.USE] = rng.choice(places), use
    for t in range(1, P + 1):
        phase, claimed = (5, rng.randint(0, N)) if t > 1 else (rng.choice((4, 10)), 0)
        own = im.CONTENTS + im.THREAD_WORDS * t
        steps = step_counts.drawn(rng)
        words[own : own + im.THREAD_WORDS] = [phase, 1, 7, 0, rng.randint(0, N), claimed, 0, steps]
    return words


def small(rng):
    """2 to 4 records, every one of them claimed last, all uses."""
    return [
        claiming(rng, uses, last)
        for N in range(2, 5)
        for last in range(1, N + 1)
        for uses in itertools.product(range(4), repeat=N)
    ]


def large(rng, count):
    """So many stores of up to 64 records: none of them free, or only the one claimed last, or a few, or most."""
    stores = []
    for _ in range(count):
        N = rng.choice((64, rng.randint(5, 63)))
        last = rng.choice((N, rng.randint(1, N)))
        few, most = (rng.sample(range(N), rng.randint(*among)) for among in ((1, 3), (N // 2, N)))
        free = rng.choice(([], [last - 1], few, most))
        stores.append(claiming(rng, [rng.choice((0, 3) if r in free else (1, 2)) for r in range(N)], last))
    return stores


def every_size(rng):
    """2 to 64 records, every one of them claimed last: none of them free, only that one, all of them, any, and a few."""
    stores = []
    for N in range(2, 65):
        for last in range(1, N + 1):
            taken = [rng.choice((1, 2)) for _ in range(N)]
            alone = [0 if r + 1 == last else use for r, use in enumerate(taken)]
            few = [rng.choice((0, 3)) if rng.random() < 2 / N else use for use in taken]
            for uses in (taken, alone, [0] * N, [rng.randrange(4) for _ in range(N)], few):
                stores.append(claiming(rng, uses, last, 16, (0, 1, 2, 3, im.MAX_PLACE)))
    return stores
