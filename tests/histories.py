"""Histories for the judge: their events, random ones, damaged ones, and long ones of shapes that a pass over them could stumble over."""

import itertools
import random

from judge_model import flatten

DEQ, EMPTY = (3, 0, 0, 0), (5, 0, 0, 0)


def enq(call, thread=1, value=7):
    return (1, thread, call, value)


def done(call, thread=1, value=7):
    return (2, thread, call, value)


def item(call, value=7):
    return (4, 0, call, value)


def run_of_calls(rng, events, producers=3, wrong=0.15, reach=2):
    """A well-formed history: overlapping calls, some wrong, calls under way at the end. Items come from the first
    `reach` that wait; with a reach of 1 a dequeue is empty only where none does."""
    history, running, started, waiting = [], {}, [], []
    numbers = iter(rng.sample(range(1, 40), 30) if rng.random() < 0.5 else range(1, 400))
    numbers = itertools.chain(numbers, itertools.count(1000))
    while len(history) < events:
        thread = rng.randrange(producers + 1)
        if thread and thread not in running:
            call = (next(numbers), rng.randrange(3))
            running[thread] = call
            started.append(call)
            waiting.append(call)
            history.append((1, thread, *call))
        elif thread:
            history.append((2, thread, *running.pop(thread)))
        elif 0 not in running:
            running[0] = None
            history.append(DEQ)
        else:
            del running[0]
            if rng.random() < wrong:
                call = rng.choice(started) if started and rng.random() < 0.7 else (rng.randrange(1, 50), rng.randrange(3))
                history.append(rng.choice([(4, 0, *call), (4, 0, call[0], (call[1] + 1) % 3), EMPTY]))
            elif waiting and (reach == 1 or rng.random() < 0.8):
                history.append((4, 0, *waiting.pop(rng.randrange(min(reach, len(waiting))))))
            else:
                history.append(EMPTY)
    return history


def damaged(rng, history):
    """The words of a history with some of them changed, dropped or repeated."""
    words = flatten(history)
    for _ in range(rng.randrange(1, 3)):
        kind = rng.randrange(4)
        at = rng.randrange(len(words)) if words else 0
        if kind == 0 and words:
            words[at] = rng.choice([0, 1, 2, 3, 4, 5, 6, 16, 17, 2**32 - 1])
        elif kind == 1 and words:
            del words[at]
        elif kind == 2 and words:
            first = at - at % 4
            words[first:first] = words[first : first + 4]
        else:
            words.append(rng.randrange(6))
    return words


def damaged_orders(rng, numbers, calls):
    """An order of some of so many calls with a number changed, dropped, repeated, moved or added, and what is none at all."""
    k, j = (rng.randrange(max(len(numbers), 1)) for _ in range(2))
    wrong = (0, calls + 1, 2**16 + k, 2**31, 2**32 - 1)
    yield from ([*numbers[:k], number, *numbers[k + 1 :]] for number in wrong)
    yield from ([*numbers[:k], number, *numbers[k:]] for number in (*wrong, *numbers[j : j + 1]))
    yield from ([*numbers, number] for number in (*wrong, rng.randrange(1, calls + 2)))
    yield numbers[:k] + numbers[k + 1 :]
    yield numbers[:k] + numbers[k + 1 : k + 2] + numbers[k : k + 1] + numbers[k + 2 :]
    yield numbers[: min(j, k)] + numbers[max(j, k) :] + numbers[min(j, k) : max(j, k)]
    yield numbers[::-1]
    yield numbers[:-1]
    yield []
    yield numbers + numbers
    yield list(range(1, calls + 1))
    yield list(range(calls))


# Long histories of so many events, all explained.


def engine_like(n, producers=4):
    """Numbers rise and items are taken nearly in order, as the engine's histories have it."""
    rng, history, running, waiting, number = random.Random(n), [], {}, [], 0
    while len(history) < n:
        thread = rng.randrange(producers + 1)
        if thread and thread not in running:
            number += 1
            running[thread] = (number, number * 7)
            history.append((1, thread, *running[thread]))
        elif thread:
            waiting.append(running.pop(thread))
            history.append((2, thread, *waiting[-1]))
        elif 0 not in running:
            running[0] = bool(waiting)
            history.append(DEQ)
        else:
            history.append((4, 0, *waiting.pop(0)) if running.pop(0) and waiting else EMPTY)
    return history


def taken(calls, value=7):
    """A dequeue for each of these calls, which gives its item."""
    return [event for call in calls for event in (DEQ, item(call, value))]


def falling_numbers(n):
    """Every start has a lower number than those before."""
    return [event for k in range(n // 2, 0, -1) for event in (enq(k), done(k))]


def falling_then_in_order(n):
    """All enqueues, of falling numbers, then all dequeues, of their items in starting order."""
    return falling_numbers(n // 2) + taken(range(n // 4, 0, -1))


def items_in_reverse(n):
    """All enqueues overlap in sixteens and are taken in reverse: each look-up starts at the wrong end."""
    history, items = [], []
    for first in range(1, n // 4 + 1, 16):
        calls = range(first, min(first + 16, n // 4 + 1))
        history += [enq(k, k - first + 1) for k in calls] + [done(k, k - first + 1) for k in calls]
        items += reversed(calls)
    return history + taken(items)


def overlapping(n):
    """Sixteen enqueues at a time, which are taken in any order while all are under way, and then end."""
    rng, history = random.Random(n), []
    for first in range(1, n // 4, 16):
        calls = rng.sample(range(first, first + 16), 16)
        history += [enq(k, k - first + 1) for k in calls]
        history += taken(rng.sample(calls, 16)) + [done(k, k - first + 1) for k in calls]
    return history[:n]


def taken_under_way(n):
    """Sixteen enqueues that never end, of which every other one is taken, the newest first, between empty answers; then more of
    those, the last dequeue under way."""
    history = [enq(t, t) for t in range(1, 17)]
    for t in range(15, 0, -2):
        history += [DEQ, EMPTY, *taken([t])]
    return (history + empties(n))[: n - 1]


def all_under_way(n):
    """Every thread has a call under way after items that wait, the consumer too."""
    return falling_numbers(n - 17) + [enq(5000 + t, t) for t in range(1, 17)] + [DEQ]


def empties(n):
    return [DEQ, EMPTY] * (n // 2)


def empties_between(n):
    """Each enqueue begins and ends within a dequeue that finds nothing, and the next one takes its item."""
    return [event for k in range(1, n // 6 + 1) for event in (DEQ, enq(k), done(k), EMPTY, *taken([k]))]


SHAPES = (
    engine_like, falling_numbers, falling_then_in_order, items_in_reverse, overlapping, taken_under_way, all_under_way,
    empties, empties_between,
)
