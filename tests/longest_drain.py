"""The longest drain (document 02, U5), over every reachable state of a small intake.

Run as a program it prints its steps and their bound: `python3 longest_drain.py B N P M LIMIT`.
"""

import sys
from functools import lru_cache

import intake_model as im
from explore import after, lent, moves, open_words, packed, unpacked
from measures import most_drain_steps


def idle_states(B, N, P, M, limit):
    """The reachable states in which the consumer is idle, as packed words."""
    start = packed(open_words(B, N, P, M))
    met, waiting = {start}, [start]
    while waiting:
        words = unpacked(waiting.pop())
        for call in moves(words, (limit,)):
            following = packed(after(words, call, im.Intake)[0])
            if following not in met:
                met.add(following)
                waiting.append(following)
    return [state for state in met if state[im.CONTENTS] == 0]


def longest(B, N, P, M, limit):
    """The accepted steps of the longest drain of a limit, whatever others do in between."""

    @lru_cache(maxsize=None)
    def left(state):
        """The most steps that the drain under way has yet to take."""
        words, most = unpacked(state), 0
        for call in moves(words):
            following, reply = after(words, call, im.Intake)
            if reply[0] != 'refused':
                own = call[:2] == lent(0)[:2]
                most = max(most, own + (left(packed(following)) if reply[0] != 'drained' else 0))
        return most

    started = {packed(after(unpacked(state), ('drain', limit), im.Intake)[0]) for state in idle_states(B, N, P, M, limit)}
    return max(map(left, started))


def main(arguments):
    B, N, P, M, limit = map(int, arguments)
    print(f'{longest(B, N, P, M, limit)} steps of at most {most_drain_steps(B, N, limit)}')


if __name__ == '__main__':
    main(sys.argv[1:])
