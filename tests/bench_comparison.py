"""The proved comparison of two recordings and the proved test of the precedence, beside the same two in plain C and a loop over the words of
both, in one run. Ratios, not absolute times: all five are timed in each round, one after the other, and each figure is the best of its rounds.

    python3 tests/bench_comparison.py"""

import ctypes
import pathlib
import random
import sys

import recordings
from archives import archive, shared
from histories import engine_like
from judge_library import Words, array
from judge_model import MAX_EVENTS, flatten

TURNS, ROUNDS = 20, 40
TIMED = ('compare', 'plain_compare', 'keep', 'plain_keep', 'words')


class Lent(ctypes.Structure):
    """The two recordings."""

    _fields_ = [('first', Words), ('first_words', ctypes.c_size_t), ('second', Words), ('second_words', ctypes.c_size_t)]


def with_another_value(history, k):
    """The call of an enqueue's start k with another value, its end and its dequeue, too."""
    number, value = history[k][2:]
    return [(*event[:3], value + 1) if event[2] == number else event for event in history]


def swapped_near_the_end(history):
    """The last two neighbours of two threads swapped."""
    k = max(k for k in range(len(history) - 1) if history[k][1] != history[k + 1][1])
    return [*history[:k], history[k + 1], history[k], *history[k + 2 :]]


def pairs():
    rng, run = random.Random(51), engine_like(MAX_EVENTS, 16)
    last = max(k for k, event in enumerate(run) if event[0] == 1)
    yield 'the same', run, run
    yield 'drifting clocks', run, recordings.drifted(rng, run, 40)
    yield 'shuffled clocks', run, recordings.shuffled(rng, run)
    yield 'more overlaps', run, recordings.overlapping_more(rng, run, 40_000)
    yield 'two swapped near the end', run, swapped_near_the_end(run)
    yield 'another value near the end', run, with_another_value(run, last)
    yield 'all different', run, [(kind, thread, number + 5_000 * (number > 0), value) for kind, thread, number, value in run]
    yield 'one cut in half', run, run[: MAX_EVENTS // 2]
    yield 'no events', [], []


def figures(library, first, second):
    """Of each that is timed the last answer and the best nanoseconds."""
    one, two = array(flatten(first)), array(flatten(second))
    lent, best, answers = Lent(one, len(one), two, len(two)), {}, {}
    for _ in range(ROUNDS):
        for name in TIMED:
            answer = ctypes.c_uint32()
            took = getattr(library, f'time_{name}')(ctypes.byref(lent), TURNS, ctypes.byref(answer))
            best[name], answers[name] = min(took, best.get(name, took)), answer.value
    if answers['compare'] != answers['plain_compare'] or answers['keep'] != answers['plain_keep']:
        sys.exit('bench_comparison: the plain version answers otherwise')
    return answers, best


def main():
    library = shared([pathlib.Path(__file__).with_suffix('.c'), archive('comparison')], 'bench', '-O2')
    for name in TIMED:
        getattr(library, f'time_{name}').restype = ctypes.c_double
    print(f'{"recordings":28}{"reply":>7}{"compare":>13}{"plain C":>13}{"ratio":>7}{"keep":>6}{"precedence":>13}{"plain C":>13}{"ratio":>7}'
          f'{"word loop":>13}')
    for name, first, second in pairs():
        answers, best = figures(library, first, second)
        compare, plain_compare, keep, plain_keep, words = (best[name] for name in TIMED)
        print(f'{name:28}{("same", "other")[answers["compare"]]:>7}{compare / 1000:10.1f} µs{plain_compare / 1000:10.1f} µs'
              f'{compare / plain_compare:7.2f}{("yes", "no")[answers["keep"]]:>6}{keep / 1000:10.1f} µs{plain_keep / 1000:10.1f} µs'
              f'{keep / plain_keep:7.2f}{words / 1000:10.1f} µs')


if __name__ == '__main__':
    main()
