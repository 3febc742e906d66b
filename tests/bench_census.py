"""The calls of the proved census beside the same calls in plain C, compiled in several ways, in one run. Ratios, not absolute times: all are timed
in each round, one after the other, and each figure is the best of its rounds. All start a round with the same board, and must leave the same.

    python3 tests/bench_census.py"""

import ctypes
import pathlib
import random
import shutil
import sys

from archives import archive, shared
from judge_library import Words, array

CALLS, ROUNDS = 4096, 40
WORDS, BEDS, STATES, OFFICES = 536, 512, 5, 4
PLAIN = [(name, flag) for name, flag in (('gcc', '-O2'), ('gcc', '-O3'), ('clang', '-O3')) if shutil.which(name)]


class Lent(ctypes.Structure):
    """A board, the numbers of the calls, and a table."""

    _fields_ = [('board', Words), ('numbers', Words), ('calls', ctypes.c_size_t), ('rows', Words), ('words', ctypes.c_size_t)]


def table(rng):
    """Twenty rows in any order, about half of the states counted."""
    rows = [(office, state, rng.randint(0, 1)) for office in range(OFFICES) for state in range(STATES)]
    rng.shuffle(rows)
    return [word for row in rows for word in row]


def value(bed, state):
    return 8 * bed + state


def cases():
    """What is timed: a name, the call, its numbers, a table, and a word of the board to be written before, with what."""
    rng = random.Random(61)
    rows, offices = table(rng), [k % OFFICES for k in range(CALLS)]
    items = [value(rng.randrange(BEDS), rng.randrange(STATES)) for _ in range(CALLS)]
    yield 'an item', 'take', items, rows, None
    yield 'an item of one bed', 'take', [value(300, (1, 2, 3, 0)[k % 4]) for k in range(CALLS)], rows, None
    yield 'an item refused with 19', 'take', [value(BEDS + k, 0) for k in range(CALLS)], rows, None
    yield 'an item refused with 22', 'take', items, rows, (WORDS - 1, BEDS + 1)
    yield 'a table', 'table', offices, rows, None
    yield 'a table refused with 20', 'table', offices, rows[:-3] + rows[:3], None
    yield 'a count', 'count', offices, rows, None


def opened(library, items, rows, written):
    """A board after a table and many items."""
    board = array([0] * WORDS)
    answers = [library.census_table(board, array(rows), ctypes.c_size_t(len(rows)))] + [library.census_take(board, item) for item in items]
    if any(answers):
        sys.exit('bench_census: the board was refused')
    if written:
        board[written[0]] = written[1]
    return board


def figures(libraries, call, board, numbers, rows):
    """The best nanoseconds of the proved call, and of the plain one as compiled in each way."""
    numbers, rows, best = array(numbers), array(rows), {}
    contestants = [(libraries[0], f'time_{call}'), *((library, f'time_plain_{call}') for library in libraries)]
    for _ in range(ROUNDS):
        left = set()
        for k, (library, name) in enumerate(contestants):
            mine, answers = array(list(board)), ctypes.c_uint32()
            took = getattr(library, name)(ctypes.byref(Lent(mine, numbers, len(numbers), rows, len(rows))), ctypes.byref(answers))
            best[k] = min(took, best.get(k, took))
            left.add((answers.value, tuple(mine)))
        if len(left) > 1:
            sys.exit(f'bench_census: {call}: the plain version answers otherwise, or leaves another board')
    return list(best.values())


def main():
    libraries = [shared([pathlib.Path(__file__).with_suffix('.c'), archive('census')], 'bench', flag, compiler=name) for name, flag in PLAIN]
    for library in libraries:
        for call in ('take', 'table', 'count'):
            getattr(library, f'time_{call}').restype = getattr(library, f'time_plain_{call}').restype = ctypes.c_double
    print(f'{"call":26}{"census":>11}{"a second":>13}' + ''.join(f'{" ".join(way):>14}{"ratio":>7}' for way in PLAIN))
    rng = random.Random(62)
    for name, call, numbers, rows, written in cases():
        items, first = [value(rng.randrange(BEDS), rng.randrange(STATES)) for _ in range(2 * BEDS)], table(rng)
        proved, *plain = figures(libraries, call, opened(libraries[0], items, first, written), numbers, rows)
        print(f'{name:26}{proved:8.1f} ns{1e9 / proved:13,.0f}' + ''.join(f'{took:11.1f} ns{proved / took:7.2f}' for took in plain))


if __name__ == '__main__':
    main()
