"""The longest enqueue (document 02, U4): searched over every reachable state of a small intake, and made for any sizes.

Run as a program it prints what the search finds: `python3 longest_enqueue.py B N P`.
"""

import heapq
import itertools
import sys
import time
from typing import NamedTuple

import explore
import intake_model as im
from intake_model import CONTENTS, THREAD_WORDS, USE_LINKED, USE_RETIRED
from measures import most_enqueue_steps, records_for

MOST_STARTS = 1_000_000
OURS, OTHER = 1, 2  # the producer whose enqueue is to last, and one that enqueues meanwhile


def bound(N, P):
    """The most accepted steps of an enqueue, by document 02."""
    return 5 * P + N + 6


def longest(B, N, P):
    """The accepted steps of the longest enqueue, by counting.

    The start, the last load, write and set are 4 steps. Before that load come rounds of phases 2 to 6, five steps each. A
    round leaves the tail record at a later place, and a position is taken at most P - 1 past the first one after the
    tail record. So there are at most as many rounds as records for P positions; with a round less, `after_the_rounds`
    gains two steps at the most."""
    return 4 + 5 * records_for(B, P) + max(after_the_rounds(B, N, P))


def after_the_rounds(B, N, P):
    """The steps of phase 7, or else those of 10 and 11, in an enqueue with the most rounds.

    A single producer has nothing to go back over. Another goes back over N - 2 records at the most: until its last load
    it holds one before that of its position, so at most N - 1 are linked from there on. And the last of P positions has
    index 0, where nothing is linked ahead, if P is one more than a multiple of B."""
    return N - 2 if P > 1 else 0, 2 if P % B != 1 else 0


# Calls on words that only the engine has written.


def accepted(intake, call):
    """Run a call on the words of an intake, in place: a start of an idle thread, or a step of a busy one, which is
    refused with 8 or not at all. Ranges are not looked at: on a large store that takes most of the time."""
    if call[0] == 's':
        try:
            return intake.run(call[1])
        except im.Refused as refusal:
            if refusal.number != 8:
                raise
            return im.refused(8)
    if call[0] == 'e':
        return intake.begin(*call[1:])
    intake.w[CONTENTS] = 1
    return ('ok',)


def starts(calls):
    """The starts of enqueues among some calls: the least M that allows them."""
    return sum(call[0] == 'e' for call in calls)


class Run:
    """Calls on one store, and their list."""

    def __init__(self, B, N, P, M=MOST_STARTS, engine=im.Intake):
        words = [0] * im.needed_words(B, N, P)
        im.open_store(words, B, N, P, M)
        self.intake, self.calls = engine(words), []
        self.words = self.intake.w

    def call(self, call):
        self.calls.append(call)
        return accepted(self.intake, call)

    def to_end(self, t):
        """Step a thread until it replies something else than going."""
        reply = self.call(('s', t))
        while reply[0] == 'going':
            reply = self.call(('s', t))
        return reply

    def start(self, t):
        """Start an enqueue, which takes its position."""
        self.call(('e', t, t))

    def enqueue(self, t):
        self.start(t)
        self.to_end(t)

    def take_all(self):
        """Dequeue until there is no item."""
        reply = ('item',)
        while reply[0] == 'item':
            self.call(('d',))
            reply = self.to_end(0)

    def tail_place(self):
        return self.intake.part(self.words[im.TAIL_RECORD] - 1, im.PLACE)

    def end_before(self, place):
        """Step to their ends the other producers that stand in phase 2 with a position before the record of a place. Where
        that is the tail record they go back, and link nothing ahead."""
        first = self.words[0] * (place - 1)
        for t in range(OTHER, self.words[2] + 1):
            own = CONTENTS + THREAD_WORDS * t
            if self.words[own] == 2 and self.words[own + im.POSITION] < first:
                self.to_end(t)


def construct(B, N, P):
    """The calls of a longest enqueue, for any sizes.

    All records are filled, so that nothing is linked after the last one. Others start and stop, ours starts next, and all
    items are taken. Ours makes its rounds; after each load, the others with positions before the tail record
    end and their items are taken, so that a record is free for the next round. (Not before the load: while ours holds a record
    that is retired no older one is free.) Where ours is to go back, the others end before its last load, nothing is
    taken, so that the record which it holds stays linked, and one of them enqueues until all records are."""
    run, rounds = Run(B, N, P), records_for(B, P)
    back, ahead = after_the_rounds(B, N, P)
    for _ in range(B * N):
        run.enqueue(min(OTHER, P))
    for t in range(OTHER, OTHER + (P - 1 if back >= ahead else B * (rounds - 1) + 1)):
        run.start(t)
    run.start(OURS)
    run.take_all()
    for _ in range(rounds):
        run.call(('s', OURS))
        run.end_before(run.tail_place())
        run.take_all()
        for _ in range(4):
            run.call(('s', OURS))
    if back >= ahead:
        own_place = run.tail_place()
        run.end_before(own_place + 1)
        while run.tail_place() < own_place + back:
            run.enqueue(OTHER)
    run.call(('s', OURS))
    if back < ahead:
        run.end_before(run.tail_place())
        run.take_all()
    run.to_end(OURS)
    return run.calls


# The search.

class Reduction:
    """One store for many that go on as it does.

    What no rule looks at before it is replied is zero: call numbers, values, starts, and numbers of steps but for ours.
    So is what no rule looks at any more: positions in phases 10 and 11, the entries of retired records, prev of the head record,
    and of retired ones to which no way back leads; next of a retired one is any. Records are numbered from the one after that
    which was claimed last, so that word 11 is N. Places come down as far as they can: those that follow on each other still do, and
    others have one between them. Positions come down with their records. Producers are sorted, ours aside."""

    def __init__(self, words):
        self.old, self.size = words, im.record_words(words[0])
        self.records = [words[first : first + self.size] for first in range(words[5], im.drain_at(*words[:3]), self.size)]
        self.order = self.one_round()
        self.number = [0] * (words[1] + 1)
        for k, r in enumerate(self.order, 1):
            self.number[r + 1] = k
        self.places = self.new_places()
        self.last = max(record[im.PLACE] for record in self.records if record[im.USE] == USE_LINKED)
        self.walked = self.ways_back()
        self.rows = [self.producer(OURS)] + sorted(map(self.producer, range(OTHER, words[2] + 1)))

    def one_round(self):
        """The records, from the one after that which was claimed last."""
        first = self.old[im.LAST_CLAIMED]
        return [*range(first, self.old[1]), *range(first)]

    def new_places(self):
        """The new place of each old one."""
        new, last = {}, None
        for place in sorted(record[im.PLACE] for record in self.records if record[im.USE] in (USE_LINKED, USE_RETIRED)):
            new[place] = 1 if last is None else new[last] + min(place - last, 2)
            last = place
        return new

    def ways_back(self):
        """The retired records that a producer in phase 7 holds or may come to."""
        walked = set()
        for own in range(CONTENTS + THREAD_WORDS, self.old[5], THREAD_WORDS):
            r = self.old[own + im.HELD] - 1 if self.old[own] == 7 else -1
            while r >= 0 and self.records[r][im.USE] == USE_RETIRED:
                walked.add(r)
                r = self.records[r][im.PREV] - 1
        return walked

    def down(self, place):
        """How far the positions of a place come down. Those past the last place, and tail, come down with that."""
        place = min(place, self.last)
        return self.old[0] * (place - self.places[place])

    def position_in(self, number, position):
        """A position that stands in the record with this old number, or at its end."""
        return position - self.down(self.records[number - 1][im.PLACE]) if number else 0

    def contents(self):
        old, head = self.old, self.old[im.HEAD_RECORD]
        records = [self.number[old[im.TAIL_RECORD]], self.number[head], self.position_in(head, old[im.HEAD_POSITION])]
        return old[: im.TAIL] + [old[im.TAIL] - self.down(self.last)] + records + [0, old[1], old[im.ALL_HANDLED], 0, 0, 0]

    def consumer(self):
        phase, cursor, cursor_position, found, found_position = self.old[CONTENTS : CONTENTS + 5]
        cursor_position, found_position = self.position_in(cursor, cursor_position), self.position_in(found, found_position)
        return [phase, self.number[cursor], cursor_position, self.number[found], found_position, 0, 0, 0]

    def producer(self, t):
        """The words of a producer, and its number."""
        own = CONTENTS + THREAD_WORDS * t
        phase, _, _, position, held, claimed, back, steps = self.old[own : own + THREAD_WORDS]
        position = position - self.down(position // self.old[0] + 1) if 2 <= phase <= 9 else 0
        return [phase, 0, 0, position, self.number[held], self.number[claimed], back, steps if t == OURS else 0], t

    def renamed(self, r):
        """The words of record r under its new number."""
        rest = [0] * (self.size - im.RECORD_HEAD)
        place, following, before, use, *entries = self.records[r]
        if use == USE_RETIRED:
            return [self.places[place], 1, self.number[before] if r in self.walked else 0, USE_RETIRED] + rest
        if use != USE_LINKED:
            return [0, 0, 0, use] + rest
        rest[:: im.ENTRY_WORDS] = entries[:: im.ENTRY_WORDS]
        before = 0 if r + 1 == self.old[im.HEAD_RECORD] else self.number[before]
        return [self.places[place], self.number[following], before, USE_LINKED] + rest

    def words(self):
        new = self.contents() + self.consumer()
        for row, _ in self.rows:
            new += row
        for r in self.order:
            new += self.renamed(r)
        return new + NO_DRAIN

    def call(self, call):
        """The call on the words as they were that a call on the new ones stands for."""
        if call == ('d',) or call[1] == 0:
            return call
        return (call[0], self.rows[call[1] - 1][1], *call[2:])


SIZES, NO_DRAIN = 4, [0] * im.DRAIN_WORDS
OUR_STEPS = CONTENTS + THREAD_WORDS * OURS + im.STEPS - SIZES  # where a packed state has them


def packed(words):
    """The reduced words but for their sizes and the drain area: here the consumer dequeues. Those of a small case are below
    256."""
    return bytes(Reduction(words).words()[SIZES : -im.DRAIN_WORDS])


def without_steps(state):
    return state[:OUR_STEPS] + b'\0' + state[OUR_STEPS + 1 :]


def moves(words):
    """A start of each idle thread, and a step of each busy one."""
    for t in range(words[2] + 1):
        busy = words[CONTENTS + THREAD_WORDS * t]
        yield ('s', t) if busy else ('e', t, 0) if t else ('d',)


class Found(NamedTuple):
    steps: int  # of the longest enqueue, or of one past its bound
    calls: list  # that lead to its last step, it included
    states: int
    transitions: int


def search(B, N, P, engine=im.Intake):
    """The longest enqueue of one producer over all interleavings of steps and starts, any number of starts. A state is
    followed again where it is reached with more steps of that enqueue; those with the most come first. An enqueue past
    its bound ends the search."""
    start = packed(Run(B, N, P).words)
    came_from, most, waiting, order = {start: None}, {start: 0}, [(0, 0, start)], itertools.count(1)
    steps, last, transitions = 0, None, 0
    while waiting and steps <= bound(N, P):
        _, _, state = heapq.heappop(waiting)
        if most[without_steps(state)] > state[OUR_STEPS]:
            continue
        words = [B, N, P, MOST_STARTS, *state, *NO_DRAIN]
        for call in moves(words):
            intake = engine(words)
            reply = accepted(intake, call)
            transitions += 1
            if call == ('s', OURS) and reply[0] != 'refused' and reply[1] > steps:
                steps, last = reply[1], (state, call)
            following = packed(intake.w)
            key, taken = without_steps(following), following[OUR_STEPS]
            if most.get(key, -1) < taken:
                most[key], came_from[following] = taken, (state, call)
                heapq.heappush(waiting, (-taken, next(order), following))
    calls = unreduced(explore.trace(came_from, last[0]) + [last[1]], Run(B, N, P, engine=engine))
    return Found(steps, calls, len(most), transitions)


def unreduced(calls, run):
    """The calls that calls on reduced words stand for; the run makes them."""
    for call in calls:
        run.call(Reduction(run.words).call(call))
    return run.calls


def main(arguments):
    B, N, P = map(int, arguments)
    began = time.perf_counter()
    found = search(B, N, P)
    print(', '.join(' '.join(map(str, call)) for call in [('open', B, N, P, starts(found.calls)), *found.calls]))
    print(f'{found.steps} steps; {most_enqueue_steps(B, N, P)} by the measure, {bound(N, P)} by document 02')
    print(f'{found.states} states, {found.transitions} transitions, {time.perf_counter() - began:.1f} s')


if __name__ == '__main__':
    main(sys.argv[1:])
