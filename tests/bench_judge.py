"""The proved judge, which writes the order, and the check of that order, beside a plain pass in C over the same words, in one run. Ratios,
not absolute times: the table is filled by each call and never cleared, and each figure is the best of five rounds.

    python3 tests/bench_judge.py [ARCHIVE]

ARCHIVE is a libjudge_c.a of before document 02's U9, whose judge writes no order; it is timed in the same rounds."""

import ctypes
import pathlib
import sys

import judge_library as jl
from histories import SHAPES, engine_like
from judge_model import MAX_EVENTS, flatten

TURNS, ROUNDS = 200, 5


class Lent(ctypes.Structure):
    """What the judge and the check are lent."""

    _fields_ = [
        ('history', jl.Words), ('words', ctypes.c_size_t), ('table', ctypes.POINTER(jl.Call)), ('entries', ctypes.c_size_t),
        ('order', jl.Words), ('order_words', ctypes.c_size_t),
    ]


def loaded(archive, *flags):
    library = jl.shared([pathlib.Path(__file__).with_suffix('.c'), archive], 'bench', '-O2', *flags)
    for name in ('time_judge', 'time_pass') + ('time_check',) * (not flags):
        getattr(library, name).restype = ctypes.c_double
    return library


def timed(function, lent, turns, answer):
    """The nanoseconds of a call; its answer."""
    return function(ctypes.byref(lent), turns, answer), answer[0]


def figures(library, before, history):
    """The judge's reply, and the best nanoseconds of the judge, of the judge before, of the check and of the pass."""
    words = jl.array(flatten(history))
    table, order = (jl.Call * MAX_EVENTS)(), (ctypes.c_uint32 * MAX_EVENTS)()
    lent = Lent(words, len(words), table, MAX_EVENTS, order, MAX_EVENTS)
    answer, rounds = (ctypes.c_uint32 * 2)(), []
    for _ in range(ROUNDS):
        judged, reply = timed(library.time_judge, lent, TURNS, answer)
        older, _ = timed(before.time_judge, lent, TURNS, (ctypes.c_uint32 * 2)()) if before else (0.0, 0)
        checked, yes = timed(library.time_check, lent, TURNS, answer)
        passed, _ = timed(library.time_pass, lent, TURNS * 5, answer)
        if reply == 0 and yes != 0:
            sys.exit('bench_judge: an order that the check turns down')
        rounds.append((judged, older, checked, passed))
    return (reply, *map(min, zip(*rounds)))


def main(*archives):
    library = loaded(jl.archive('judge_c'))
    before = loaded(pathlib.Path(archives[0]), '-DBEFORE') if archives else None
    cases = [(f'engine like {n}', engine_like(n)) for n in (512, 1024, 2048)]
    cases += [(f'{shape.__name__.replace("_", " ")} {MAX_EVENTS}', shape(MAX_EVENTS)) for shape in SHAPES] + [('no events', [])]
    print(f'{"history":28}{"reply":>12}{"with order":>13}{"ns/event":>10}{"before":>13}{"check alone":>14}{"ns/event":>10}{"C pass":>12}'
          f'{"judge / C":>11}{"check / C":>11}')
    for name, history in cases:
        reply, judged, older, checked, passed = figures(library, before, history)
        word, events = jl.WORDS.get(reply, f'refused {reply}'), max(len(history), 1)
        older = f'{older / 1000:10.1f} µs' if before else f'{"":13}'
        print(f'{name:28}{word:>12}{judged / 1000:10.1f} µs{judged / events:10.1f}{older}{checked / 1000:11.1f} µs{checked / events:10.1f}'
              f'{passed / 1000:9.1f} µs{judged / max(passed, 1):11.1f}{checked / max(passed, 1):11.1f}')


if __name__ == '__main__':
    main(*sys.argv[1:])
