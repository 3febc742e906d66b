"""Boards, tables and lists of calls of the census, right ones and such as are refused, for its tests."""

import census_model as cm

MOST_WORD = 2**32 - 1
MOST = [4] * 512 + [1] * 20 + [512] * 4  # of each word of a board
WIDE = (2**8, 2**16, 2**31, MOST_WORD)  # words that are small if they are cut to fewer bits, or below zero if their first bit is a sign


def random_table(rng):
    return {key: rng.randrange(2) for key in cm.KEYS}


def shuffled_rows(rng, table):
    """The words of a table, its rows in any order."""
    return cm.rows_of(table, rng.sample(cm.KEYS, len(cm.KEYS)))


def random_board(rng, counts=None):
    """A board in range that need not be one that the calls have written."""
    states = [rng.randrange(cm.STATES) for _ in range(cm.BEDS)]
    words = [rng.randrange(2) for _ in cm.KEYS]
    return [*states, *words, *(counts or [rng.choice((0, 1, rng.randrange(cm.BEDS + 1), cm.BEDS - 1, cm.BEDS)) for _ in range(cm.OFFICES)])]


def written_board(rng, items, beds=cm.BEDS):
    """A board after so many items for some beds, and a table among them."""
    board = cm.opened()
    for k in range(items):
        if k == items // 2:
            cm.read_table(board, shuffled_rows(rng, random_table(rng)))
        cm.take(board, random_item(rng, beds))
    return board


def random_item(rng, beds=cm.BEDS):
    return cm.value_of(rng.randrange(beds), rng.randrange(cm.STATES))


def other_value(rng):
    """A value of another bed or state."""
    bed = rng.choice((rng.randrange(cm.BEDS), cm.BEDS, rng.randrange(cm.BEDS, 2**29), 2**29 - 1))
    return cm.value_of(bed, rng.randrange(cm.STATES if bed < cm.BEDS else 0, 8))


def out_of_range_words(k):
    """Words that word k of a board may not be."""
    return [MOST[k] + 1, *(word for word in WIDE if word > MOST[k])]


def with_word(words, k, word):
    return [*words[:k], word, *words[k + 1 :]]


def wrong_rows(rows):
    """Words of sixty that are no table, each for one reason alone: of each row the office, the state or the third word is too much; or it is
    missing since another stands twice, with the same third word or the other one."""
    for k in range(0, cm.ROWS_WORDS, 3):
        for at, most in ((k, cm.OFFICES - 1), (k + 1, cm.STATES - 1), (k + 2, 1)):
            for word in (most + 1, *WIDE):
                yield with_word(rows, at, word)
        for twin in {(k + 3) % cm.ROWS_WORDS, (k + 27) % cm.ROWS_WORDS, (k - 3) % cm.ROWS_WORDS}:
            row = rows[twin : twin + 3]
            yield [*rows[:k], *row, *rows[k + 3 :]]
            yield [*rows[:k], *row[:2], 1 - row[2], *rows[k + 3 :]]


def no_table(rng):
    """Words that are no table, for some reason or several."""
    rows = shuffled_rows(rng, random_table(rng))
    if rng.random() < 0.3:
        return (rows * 3)[: rng.choice((0, 1, 3, 57, 59, 61, 63, rng.randrange(60), rng.randrange(61, 180)))]
    return rng.choice(list(wrong_rows(rows)))


def random_call(rng, beds=cm.BEDS, weights=(85, 7, 2, 2, 4)):
    """A call of a list: an item for some beds, of another bed or state, a table, words that are none, the census of an office; these as often
    as their weights say."""
    kinds = (
        lambda: ('take', random_item(rng, beds)),
        lambda: ('take', other_value(rng)),
        lambda: ('table', shuffled_rows(rng, random_table(rng))),
        lambda: ('table', no_table(rng)),
        lambda: ('count', rng.choice((0, 1, 2, 3, 4, MOST_WORD))),
    )
    return rng.choices(kinds, weights)[0]()
