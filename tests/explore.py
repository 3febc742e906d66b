"""Every reachable state of small intakes, and random runs of larger ones, with the invariants checked on each.

Run as a program it prints what it explored: `python3 explore.py [B N P M [LIMIT ..]]`, with drains of these limits.
"""

import random
import sys
import time
from collections import deque
from functools import lru_cache
from typing import NamedTuple

import intake_model as im
import invariants
import judge_model as jm
import measures
import step_counts


def value_of(call):
    """The value that an exploration gives to a call number."""
    return 100 + call


def steps(*threads):
    return [('s', t) for t in threads]


def enqueue(t, call, count):
    """The first steps of a call, so many, the start among them."""
    return [('e', t, value_of(call))] + steps(t) * (count - 1)


def dequeue(count):
    return [('d',)] + steps(0) * count


# The cases that the default run explores whole: B, N, P, M, the limits of their drains.
SMALL_CASES = (
    (2, 2, 1, 4),
    (2, 2, 1, 6, (1, 2, 3)),
    (2, 3, 1, 10),
    (2, 4, 1, 8),
    (2, 2, 2, 2, (1, 2, 3)),
    (2, 2, 2, 3),
    (2, 3, 2, 3),
)

# Cases that are explored whole from a later state on: B, N, P, M, the limits, the calls that lead there.
HEAD_LATE = enqueue(1, 1, 1) + enqueue(2, 2, 6) + enqueue(2, 3, 7)
TWO_GONE = enqueue(1, 1, 4) + enqueue(1, 2, 6) + dequeue(3) * 2
THREE_IN = enqueue(1, 1, 4) + enqueue(1, 2, 6) + enqueue(1, 3, 7)
THREE_GONE = THREE_IN + enqueue(1, 4, 6) + dequeue(3) + dequeue(4) + dequeue(3)
STOPPED = enqueue(1, 1, 1) + enqueue(2, 2, 6) + enqueue(2, 3, 7)  # producer 1 has taken position 0
THREE_TAKEN = dequeue(7) + dequeue(11) + dequeue(15)  # positions 1 to 3: the second record is all handled
TO_FOLD = STOPPED + enqueue(2, 4, 6) + enqueue(2, 5, 7) + THREE_TAKEN
TO_FOLD_IN_10 = STOPPED + enqueue(3, 4, 4) + enqueue(2, 5, 9) + THREE_TAKEN  # producer 3 holds it
TO_FOLD_IN_3 = STOPPED + enqueue(2, 4, 6) + enqueue(3, 5, 2) + enqueue(2, 6, 9) + THREE_TAKEN
# Producer 1 holds the third record in phase 7. That one was folded, and then the second, to which its prev leads.
WALK = enqueue(1, 1, 1) + enqueue(2, 2, 6) + enqueue(3, 3, 1) + enqueue(2, 4, 9) + enqueue(2, 5, 7) + steps(1)
WALK += enqueue(2, 6, 6) + enqueue(2, 7, 7) + dequeue(7) + dequeue(15) + dequeue(19) + dequeue(23) + dequeue(25)
WALK += steps(3) * 4 + dequeue(11) + dequeue(13) + enqueue(2, 8, 6) + enqueue(2, 9, 7)
GIVEN_BACK = enqueue(1, 1, 4) + enqueue(2, 2, 3) + enqueue(1, 3, 3) + steps(2, 1, 2, 1, 2, 1, 1, 1, 1)
LATER_CASES = (
    (2, 2, 2, 5, (), HEAD_LATE),
    (2, 2, 2, 4, (2,), HEAD_LATE),
    (2, 2, 2, 5, (), TWO_GONE),
    (2, 3, 2, 6, (2,), THREE_GONE),  # the last record was claimed last, and record 0 is free
    (2, 3, 2, 5, (), GIVEN_BACK),  # the record claimed last is free
    (2, 4, 2, 6, (2,), TO_FOLD),
    (2, 4, 3, 6, (), TO_FOLD),
    (2, 4, 3, 5, (), TO_FOLD_IN_10),
    (2, 4, 3, 6, (2,), TO_FOLD_IN_3),
    (2, 5, 3, 10, (), WALK),
    (2, 3, 2, 6, (), TO_FOLD),
    (2, 5, 2, 8, (), TO_FOLD + enqueue(2, 6, 6) + dequeue(17) + enqueue(2, 7, 7)),  # one is folded, and the next is to be
)

# Cases whose lists of calls are all tried: B, N, P, M, the number of calls, the limits, and the calls before them.
HISTORY_CASES = (
    (2, 2, 2, 2, 18),
    (2, 3, 2, 3, 16),
    (2, 2, 2, 2, 13, (1, 2)),
    (2, 3, 2, 5, 20, (), THREE_IN + dequeue(3)),  # the next dequeue drains the head record
    (2, 3, 2, 5, 14, (2, 3), THREE_IN + dequeue(3)),  # the next drain gives two items in two records
    (2, 4, 3, 7, 10, (), THREE_IN + dequeue(3) * 2),  # it stands in phase 8
    (2, 4, 2, 6, 24, (), TO_FOLD + dequeue(9)),  # the next step folds
)
EXPECTED_REFUSALS = (4, 5, 6, 7, 8, 14, 15)  # on a store that only the engine has written
ALL_ORDERS_CALLS = 9  # histories of at most so many calls are tried in all orders
RANDOM_RUNS = 300
FOLDING_RUNS = 80
STALLED_RUNS = 200
SOME_STEPS = 9


class Result(NamedTuple):
    states: int
    transitions: int
    whole: bool  # every reachable state was met
    violation: tuple | None  # (calls, after the first ones; what is wrong)


def open_words(B, N, P, M):
    words = [0] * im.needed_words(B, N, P)
    im.open_store(words, B, N, P, M)
    return words


def lent(t, words=2 * im.MOST_ITEMS, named=0):
    """A step that is lent a buffer of so many words."""
    return ('s', t, [0] * words, named)


def moves(words, limits=()):
    """Every call that may be accepted: a start of each idle thread, with drains of these limits, and a step of each busy
    one, with a buffer long enough."""
    for t in range(words[2] + 1):
        if words[im.CONTENTS + im.THREAD_WORDS * t]:
            yield lent(t)
        elif t == 0:
            yield from [('d',)] + [('drain', limit) for limit in limits]
        elif words[im.STARTS] < words[3]:
            yield ('e', t, value_of(words[im.STARTS] + 1))


def after(words, call, engine):
    """The words and the reply of a call; the words before stay as they are."""
    words = list(words)
    reply = im.do(words, call, engine)
    return words, reply


def alike(words):
    """The words with SOME_STEPS as the number of steps of every call under way. No rule looks at these numbers before
    their end, so states that differ in them alone are followed once, and are as many as without them. Each call is held
    to what it must do to them (`step_counts.miscounted`); random runs keep them and count for themselves."""
    words = list(words)
    for own in range(im.CONTENTS, words[5], im.THREAD_WORDS):
        words[own + im.STEPS] = SOME_STEPS if words[own] else 0
    return words


def packed(words):
    """The words, `alike`, as bytes without the zeros at their end."""
    return bytes(alike(words)).rstrip(b'\0')


def unpacked(state):
    words = list(state)
    return words + [0] * (im.needed_words(*words[:3]) - len(words))


def short_buffers(words, call, reply, words_after, engine):
    """What is wrong with the same step lent too short a buffer: by one word, or ending before the named one. It is refused
    with 15, and nothing has changed, exactly where a drain would end. Otherwise it is the same step."""
    if call[0] != 's' or not im.drain_word(words, im.LIMIT):
        return []
    ends = reply[0] == 'drained'
    short = [lent(call[1], 0, 1)] + [lent(call[1], 2 * reply[1] - 1)] * (ends and reply[1] > 0)
    expected = (words, ('refused', 15)) if ends else (words_after, reply)
    return ['a buffer too short'] * any(after(words, each, engine) != expected for each in short)


def wrong_reply(reply):
    return reply[0] == 'refused' and reply[1] not in EXPECTED_REFUSALS


def trace(came_from, state):
    """The calls that lead to a state."""
    calls = []
    while came_from[state] is not None:
        state, call = came_from[state]
        calls.append(call)
    return calls[::-1]


def state_after(words, calls, engine, ghost):
    """The state, words and ghost, that some calls lead to."""
    for call in calls:
        before, (words, reply) = words, after(words, call, engine)
        ghost = ghost.after(call, before, reply, words)
    return packed(words), ghost


def explore(B, N, P, M, limits=(), first=(), engine=im.Intake, limit=None, clauses=None):
    """Breadth first over words and ghost, all interleavings, with drains of these limits, from the state after the calls
    `first` on, until a clause fails, or a call is wrong in its number of steps, its measure or its buffer. The words of
    a small case are below 256, so a state keeps them as bytes."""
    start = state_after(open_words(B, N, P, M), first, engine, invariants.Ghost())
    came_from, queue, transitions, met = {start: None}, deque([start]), 0, set()
    measured = lru_cache(maxsize=None)(lambda state: measures.measures(unpacked(state)))
    clauses = clauses or invariants.CLAUSES
    of_histories = {name: holds for name, holds in clauses.items() if name not in invariants.STORE}
    while queue:
        state = queue.popleft()
        words, ghost = unpacked(state[0]), state[1]
        again = (state[0], ghost.gap) in met  # with other histories
        met.add((state[0], ghost.gap))
        bad = invariants.broken(words, ghost, of_histories if again else clauses)
        if bad:
            return Result(len(came_from), transitions, False, (trace(came_from, state), bad))
        for call in moves(words, limits):
            words_after, reply = after(words, call, engine)
            transitions += 1
            packed_after = packed(words_after)
            bad = [f'reply {reply}'] if wrong_reply(reply) else []
            if reply[0] != 'refused' and not again:
                bad = step_counts.miscounted(call, reply, words, words_after)
                bad += measures.broken(call, reply, words, words_after, measured(state[0]), measured(packed_after))
                bad += short_buffers(words, call, reply, words_after, engine)
            if bad:
                return Result(len(came_from), transitions, False, (trace(came_from, state) + [call], bad))
            following = (packed_after, ghost.after(call, words, reply, words_after))
            if following not in came_from:
                if limit is not None and len(came_from) >= limit:
                    return Result(len(came_from), transitions, False, None)
                came_from[following] = (state, call)
                queue.append(following)
    return Result(len(came_from), transitions, True, None)


# Demand 3 itself.


def demand_3_small(items_left, history):
    """Demand 3 by all orders: the history is linearizable, and with no call under way the items left are a queue that
    some linearization leaves."""
    left = jm.linearizations_leaving(history)
    idle = all(call.end for call in jm.calls_of(history))
    return bool(left) and (not idle or items_left in left)


def demand_3_long(items_left, history):
    """The same by the polynomial checks."""
    if any(call.end == 0 for call in jm.calls_of(history)):
        return jm.explained_in_time(history) and jm.explained_by_mark(history)
    return jm.explained_by_mark(history) and jm.leaves(history, items_left)


def wrongly_told(words, ghost, explained):
    """What is wrong with the two histories of a ghost, as lists: the clauses of the told one, and what is kept is explained
    too."""
    view = invariants.View(words, ghost)
    bad = [name for name, holds in invariants.TOLD.items() if not holds(view)]
    return bad if bad or ghost.kept == ghost.told or explained(ghost.kept) else ['what is kept in 8']


def consumers(words):
    """The words of the consumer and of its drain, but for its number of steps."""
    return bytes(words[im.CONTENTS : im.CONTENTS + im.STEPS] + words[im.drain_at(*words[:3]) :])


def explore_histories(B, N, P, M, depth, limits=(), first=(), engine=im.Intake):
    """Every list of at most `depth` accepted calls after the calls `first`, with drains of these limits, and demand 3
    checked by all orders after each call. States that agree in histories and words, numbers of steps aside, are followed
    once."""
    states = {state_after(open_words(B, N, P, M), first, engine, invariants.listed())}
    met, transitions, verdicts = len(states), 0, {}
    for _ in range(depth):
        following = set()
        for state, ghost in states:
            words = unpacked(state)
            for call in moves(words, limits):
                words_after, reply = after(words, call, engine)
                transitions += 1
                longer = ghost.after(call, words, reply, words_after)
                left = tuple(im.items_left(words_after))
                key = (longer.kept, longer.told, left, consumers(words_after))
                if key not in verdicts:
                    bad = wrongly_told(words_after, longer, jm.explained_by_all_orders)
                    verdicts[key] = bad if demand_3_small(left, longer.told) else ['demand 3']
                if verdicts[key] or wrong_reply(reply):
                    return Result(met, transitions, False, ([longer.told], verdicts[key] or [f'reply {reply}']))
                following.add((packed(words_after), longer))
        met += len(following)
        states = following
    return Result(met, transitions, False, None)


# Random runs.


def random_sizes(rng):
    B = rng.choice((2, 2, 2, 3, 4, 5, 8))
    return B, rng.randint(2, 6), rng.randint(1, 6), rng.randint(1, 60)


def random_call(rng, words, threads):
    """A call of one of some threads, accepted more often than not."""
    t = rng.choice(threads)
    if rng.random() < 0.02:
        t = rng.choice((0, words[2] + 1, im.U32, *threads))
    busy = t <= words[2] and words[im.CONTENTS + im.THREAD_WORDS * t]
    if busy or rng.random() < 0.05:
        return random_step(rng, t)
    return random_start(rng) if t == 0 else ('e', t, rng.choice((0, 7, 7, im.U32, rng.randrange(2**32))))


def random_start(rng):
    """A dequeue, or a drain, most often of a limit within its range."""
    return ('d',) if rng.random() < 0.4 else ('drain', rng.choice((1, 2, 3, 3, 5, 8, 64, rng.choice((0, 65, im.U32)))))


def random_step(rng, t):
    """A step that is lent a buffer most often long enough for the few items that wait."""
    length = rng.choice((0, 1, 3, 128, 128, 128, 130))
    return lent(t, length, rng.choice((0, 0, 0, 1, 2, length, length + 1, im.U32)))


class Checked:
    """A run whose calls are checked: every clause, the numbers of steps and the measures after each accepted call, and demand 3
    at each dequeue's end and where no call is under way."""

    def __init__(self, sizes, engine):
        self.recorder = im.Recorder(*sizes, engine=engine)
        self.words, self.lengths, self.accepted = self.recorder.words, measures.Lengths(self.recorder.words), 0
        self.ghost, self.lists = invariants.Ghost(), invariants.listed()

    def call(self, call):
        """Make a call. What is wrong then."""
        before = list(self.words)
        reply = self.recorder.call(call)
        if wrong_reply(reply):
            return [f'reply {reply}']
        if reply[0] == 'refused':
            return ['a refusal changed the words'] * (self.words != before)
        self.accepted += 1
        self.ghost, self.lists = (past.after(call, before, reply, self.words) for past in (self.ghost, self.lists))
        bad = invariants.broken(self.words, self.ghost) + self.lengths.wrong(call, reply, before, self.words)
        bad = bad or wrongly_told(self.words, self.lists, jm.explained_in_time)
        if not bad and (reply[0] in ('item', 'empty', 'drained') or not self.recorder.busy):
            bad = self.demand_3()
        return bad

    def demand_3(self):
        left = tuple(im.items_left(self.words))
        if not demand_3_long(left, self.recorder.history):
            return ['demand 3']
        few = sum(event[0] in (1, 3) for event in self.recorder.history) <= ALL_ORDERS_CALLS
        if few and not demand_3_small(left, self.recorder.history):
            return ['demand 3 by all orders']
        return []


def random_run(seed, calls=250, engine=im.Intake):
    """One random run. In bursts only some threads move, so that others stop anywhere. Gives (accepted calls, folds,
    violation)."""
    rng = random.Random(seed)
    sizes = random_sizes(rng)
    P, run = sizes[2], Checked(sizes, engine)
    threads = list(range(P + 1))
    for k in range(calls):
        if k % 20 == 0:
            threads = rng.sample(range(P + 1), rng.randint(1, P + 1))
        call = random_call(rng, run.words, threads)
        bad = run.call(call) or (run.demand_3() if k == calls - 1 else [])
        if bad:
            return run.accepted, len(run.ghost.gap), (seed, k, call, bad)
    return run.accepted, len(run.ghost.gap), None


STOPS = (2, 2, 3, 4, 5, 6, 7, 7, 8, 9, 10, 11)


def folding_run(seed, calls=700, engine=im.Intake):
    """One random run in which records are folded: one or two producers stop before some phase, for long or for good, and others
    now and then in phases 2 and 7, on their way back. Gives the same."""
    rng = random.Random(seed)
    P = rng.randint(2, 5)
    run = Checked((rng.choice((2, 2, 2, 3, 4)), rng.randint(3, 10), P, 200), engine)
    stops = {t: rng.choice(STOPS) for t in rng.sample(range(1, P + 1), rng.randint(1, 2))}
    walkers, stands = set(rng.sample(range(1, P + 1), rng.randint(0, P - 1))), dict.fromkeys(range(P + 1), 0)
    consumers = rng.choice(((0, 0), (0, 0, 0, 0, 0)))
    for k in range(calls):
        t = rng.choice((*consumers, *range(1, P + 1)))
        phase = run.words[im.CONTENTS + im.THREAD_WORDS * t]
        if stands[t]:
            stands[t] -= 1
            continue
        if t in walkers and phase in (2, 7) and rng.random() < 0.7:
            stands[t] = rng.choice((5, 15, 40, 80))
            continue
        if phase and stops.get(t) == phase:
            stands[t], stops[t] = rng.choice((20, 60, 200, calls)), rng.choice(STOPS)
            continue
        start = ('e', t, 7) if t else ('d',) if rng.random() < 0.7 else ('drain', rng.choice((1, 2, 3, 64)))
        call = lent(t) if phase else start
        if bad := run.call(call):
            return run.accepted, len(run.ghost.gap), (seed, k, call, bad)
    return run.accepted, len(run.ghost.gap), None


def runs_of(run, seeds, engine=im.Intake):
    """Such runs for a range of seeds: (accepted calls in all, folds, the first violation or None)."""
    total = folds = 0
    for seed in seeds:
        accepted, folded, violation = run(seed, engine=engine)
        total, folds = total + accepted, folds + folded
        if violation:
            return total, folds, violation
    return total, folds, None


def stalled_run(seed, calls=600, engine=im.Intake):
    """One random run of few records whose producers stand still for long, some of them for good, so that steps meet 8;
    numbers of steps and measures checked after each accepted call. Gives (accepted calls, refusals 8, violation)."""
    rng = random.Random(seed)
    P = rng.randint(1, 8)
    words = open_words(rng.choice((2, 2, 3, 4)), rng.randint(2, 5), P, rng.choice((20, 1_000)))
    lengths, accepted, met, gone = measures.Lengths(words), 0, 0, set()
    for k in range(calls):
        if k % 40 == 0:
            if rng.random() < 0.1:
                gone.add(rng.randint(1, P))
            threads = [t for t in rng.sample(range(P + 1), rng.randint(1, P + 1)) if t not in gone] or [0]
        t = rng.choice(threads)
        busy = words[im.CONTENTS + im.THREAD_WORDS * t]
        call = random_step(rng, t) if busy else ('e', t, k) if t else random_start(rng)
        before, (words, reply) = words, after(words, call, engine)
        if reply[0] == 'refused':
            met += reply[1] == 8
            bad = [f'reply {reply}'] if wrong_reply(reply) else []
        else:
            accepted += 1
            bad = lengths.wrong(call, reply, before, words)
        if bad:
            return accepted, met, (seed, k, call, bad)
    return accepted, met, None


def stalled_runs(seeds, engine=im.Intake):
    """Such runs for a range of seeds: (accepted calls, refusals 8, the first violation or None)."""
    accepted = met = 0
    for seed in seeds:
        more, more_met, violation = stalled_run(seed, engine=engine)
        accepted, met = accepted + more, met + more_met
        if violation:
            return accepted, met, violation
    return accepted, met, None


def main(arguments):
    numbers = tuple(map(int, arguments))
    cases = [numbers[:4] + (numbers[4:],)] if arguments else SMALL_CASES + LATER_CASES
    for case in cases:
        report('states', case[:5], explore, *case)
    if not arguments:
        for case in HISTORY_CASES:
            report('histories', case[:6], explore_histories, *case)
        report('random runs', RANDOM_RUNS, runs_of, random_run, range(RANDOM_RUNS))
        report('folding runs', FOLDING_RUNS, runs_of, folding_run, range(FOLDING_RUNS))
        report('stalled runs', STALLED_RUNS, stalled_runs, range(STALLED_RUNS))


def report(what, case, run, *arguments):
    began = time.perf_counter()
    result = run(*arguments)
    print(what, case, result, f'{time.perf_counter() - began:.1f} s', flush=True)


if __name__ == '__main__':
    main(sys.argv[1:])
