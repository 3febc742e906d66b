"""How long a store lasts (document 02, U6; docs/STEPS.md, "Room"): runs with a feeder that has stopped for good, and runs that
keep to the room rule, under four rules of which records are free.

Run as a program it prints the figures of docs/STEPS.md and docs/CHANGES.md: `python3 dry_runs.py stopped` and
`python3 dry_runs.py room`.
"""

import itertools
import random
import sys
from typing import NamedTuple

import intake_model as im
from intake_model import CONTENTS, THREAD_WORDS, USE_FREE, USE_LINKED, USE_RETIRED
from longest_enqueue import Run

# Engines.


class Before(im.Intake):
    """As it was before U6: no record is folded, and a retired record is free when no producer holds it."""

    def fold(self, r):
        pass

    def next_record(self):
        return next_of(self.w, lambda place, walker: False)


class Narrower(im.Intake):
    """With folding. A retired record is free when no producer holds it, and none in phase 7 holds a retired record of greater
    place: only phase 7 follows prev."""

    def next_record(self):
        return next_of(self.w, lambda place, walker: place < walker.place)


class Between(im.Intake):
    """The same, but what is before the record of that producer's position is free: phase 7 goes back no further."""

    def next_record(self):
        return next_of(self.w, lambda place, walker: walker.position // self.B < place < walker.place)


class Walker(NamedTuple):
    """A producer in phase 7 that holds a retired record."""

    position: int
    place: int  # of that record


def next_of(words, keeps):
    """The next free record, where a retired one is free if no producer holds it and no walker keeps its place."""
    uses, places, held = im.record_parts(words, im.USE), im.record_parts(words, im.PLACE), im.held_records(words)
    threads = [words[k : k + THREAD_WORDS] for k in range(CONTENTS + THREAD_WORDS, words[5], THREAD_WORDS)]
    in_7 = [(own[im.POSITION], own[im.HELD] - 1) for own in threads if own[im.PHASE] == 7]
    walkers = [Walker(position, places[r]) for position, r in in_7 if uses[r] == USE_RETIRED]

    def let_go(r):
        return r not in held and not any(keeps(places[r], walker) for walker in walkers)

    free = [r for r, use in enumerate(uses) if use == USE_FREE or use == USE_RETIRED and let_go(r)]
    return im.first_after_last(words, free)


# A feeder that has stopped for good.


def enqueue(run, t):
    """Start an enqueue and step it to its end, or until it meets 8."""
    run.call(('e', t, 0))
    return run.to_end(t)


def dequeue(run):
    run.call(('d',))
    return run.to_end(0)


def turn(run, t):
    """A whole enqueue and a whole dequeue. Whether the enqueue ended."""
    ended = enqueue(run, t)[0] == 'end'
    if ended:
        dequeue(run)
    return ended


def phase_of(run, t):
    return run.words[CONTENTS + THREAD_WORDS * t]


def stand_before(run, t, phase):
    """Step a thread until it stands before a phase."""
    while phase_of(run, t) != phase:
        run.call(('s', t))


STOPPED, OTHER, THIRD = 1, 2, 3  # the feeder that stops; those that go on, at least two


def stop(run, phase):
    """The feeder starts and stands still before a phase: at the first position of a record, or at the second one for
    phases 10 and 11. For 4 and 5 the record has not been linked ahead, for 7 the tail record has gone on."""
    B = run.words[0]
    while run.words[im.TAIL] % B != (1 if phase in (4, 5, 10, 11) else 0):
        turn(run, OTHER)
    if phase in (4, 5):
        run.call(('e', THIRD, 0))
        stand_before(run, THIRD, 10)
        while run.words[im.TAIL] % B:
            turn(run, OTHER)
    run.start(STOPPED)
    if phase == 7:
        for _ in range(B):
            turn(run, OTHER)
    stand_before(run, STOPPED, phase)
    if phase in (4, 5):
        run.to_end(THIRD)


def stopped_feeder(sizes, engine, phase, before, most):
    """A feeder and the worker take turns, so many; another one stops for good before a phase; then the others and the worker go
    on, each enqueue and each dequeue whole, in turn, so that at most one item waits. The enqueues that end after the stop until
    one meets 8, or so many."""
    run = Run(*sizes, engine=engine)
    for _ in range(before):
        turn(run, OTHER)
    stop(run, phase)
    for k in range(most):
        if not turn(run, OTHER + k % (sizes[2] - 1)):
            return k
        run.calls.clear()
    return most


# A host that keeps to the room rule.


def has_room(words):
    """`intake_has_room` of include/intake.h: the records that are linked, those that may be linked before the next look, and two
    for each producer."""
    B, N, P = words[:3]
    uses, places = im.record_parts(words, im.USE), im.record_parts(words, im.PLACE)
    linked = [place for place, use in zip(places, uses) if use == USE_LINKED]
    further = max(0, (words[im.TAIL] + P - 2) // B + 2 - max(linked))
    return len(linked) + further + 2 * P <= N


def has_room_from_head(words):
    """`intake_has_room` before U6: by the positions from the head to tail."""
    B, N, P = words[:3]
    kept = 2 * P + 3
    return N >= kept and words[im.TAIL] + P <= words[im.HEAD_POSITION] + B * (N - kept)


def holds_retired(words, t):
    """Whether a producer holds a retired record."""
    held = words[CONTENTS + THREAD_WORDS * t + im.HELD]
    return held > 0 and im.record_parts(words, im.USE)[held - 1] == USE_RETIRED


class Host:
    """The scheduler of host/scheduler.h, with dequeues alone: the consumer has a third of the turns and its share of the others, and a
    producer stands still now and then, for up to 200 of its turns. An enqueue is started where there is room. Before the
    consumer moves the head record (`careful` is 'head'), before it retires a record by that or by a fold ('retired'), or before
    each of its steps ('always'), a careful host steps on whoever is in phase 4 or holds a retired record, for as long as
    those steps are accepted. Producer 1 may stop for good before a phase."""

    def __init__(self, sizes, engine, seed, careful=None, room=has_room, stands=0.02, stops=None):
        self.run, self.rng = Run(*sizes, engine=engine), random.Random(seed)
        self.careful, self.room, self.stands, self.stops = careful, room, stands, stops
        self.words, self.P = self.run.words, sizes[2]
        self.turns_to_stand = [0] * (self.P + 1)
        self.ended = self.met = 0

    def play(self, most):
        """Until so many enqueues have ended, or nothing can change any more. Whether the store is dry for good."""
        while self.ended < most:
            self.turn()
            self.run.calls.clear()
            if self.at_rest():
                return self.waits()
        return False

    def turn(self):
        t = self.rng.choice((0, *[self.rng.randint(0, self.P)] * 2))
        if self.gone(t):
            return
        if self.turns_to_stand[t]:
            self.turns_to_stand[t] -= 1
            return
        if t and self.rng.random() < self.stands:
            self.turns_to_stand[t] = self.rng.randrange(200)
        if t == 0 and self.careful and (self.careful == 'always' or self.moves_the_head() or self.careful == 'retired' and self.folds()):
            self.step_on()
        self.go(t)

    def gone(self, t):
        return t == STOPPED and phase_of(self.run, t) == self.stops

    def go(self, t):
        """A step of a thread, or its start; the reply, None if it has nothing to start."""
        if phase_of(self.run, t):
            reply = self.run.call(('s', t))
            self.ended += reply[0] == 'end'
            self.met += reply[0] == 'refused'
            return reply
        if t == 0 or self.room(self.words):
            return self.run.call(('e', t, 0) if t else ('d',))
        return None

    def moves_the_head(self):
        """Whether the consumer's next step leaves the head record."""
        intake, phase = self.run.intake, phase_of(self.run, 0)
        at_end = intake.at_end(self.words[im.HEAD_RECORD] - 1, self.words[im.HEAD_POSITION])
        return phase == 8 or phase == 1 and at_end and not intake.head_is_tail()

    def folds(self):
        """Whether the consumer's next step folds a record."""
        intake, (phase, cursor, position) = self.run.intake, self.words[CONTENTS : CONTENTS + 3]
        crosses = phase == 3 and intake.at_end(cursor - 1, position) and self.words[im.TAIL_RECORD] != cursor
        return crosses and intake.read_whole(cursor - 1)

    def step_on(self):
        accepted = True
        while accepted:
            waiting = [t for t in range(1, self.P + 1) if not self.gone(t) and self.in_the_way(t)]
            accepted = [t for t in waiting if self.go(t)[0] != 'refused']

    def in_the_way(self, t):
        return phase_of(self.run, t) == 4 or holds_retired(self.words, t)

    def at_rest(self):
        """No call that this host may make changes the store any more, but for dequeues that answer empty: the consumer is
        idle, no item is left, every producer that has not stopped for good stands in phase 4 with no record free, or is idle
        with no room, and a further dequeue answers empty and leaves all words as they were."""
        producers = [t for t in range(1, self.P + 1) if not self.gone(t)]
        if phase_of(self.run, 0) or any(self.may_go_on(t) for t in producers) or im.items_left(self.words):
            return False
        before = list(self.words)
        return dequeue(self.run)[0] == 'empty' and self.words == before

    def may_go_on(self, t):
        phase = phase_of(self.run, t)
        if phase == 4:
            return self.run.intake.next_record() is not None
        return phase != 0 or self.room(self.words)

    def waits(self):
        """Whether some producer stands in phase 4. A store at rest is dry for good then, and otherwise has only no room."""
        return any(phase_of(self.run, t) == 4 for t in range(1, self.P + 1))


RULES = {
    'document 02': (im.Intake, None),
    'before U6': (Before, None),
    'phase 7 alone': (Narrower, None),
    'document 02, careful before the head moves': (im.Intake, 'head'),
    'document 02, careful before a record is retired': (im.Intake, 'retired'),
    'document 02, careful before each step': (im.Intake, 'always'),
    'phase 7, from its position on': (Between, None),
}


class Figures(NamedTuple):
    dry: int  # runs that are dry for good
    at: list  # the fewest and the most enqueues that had ended in those
    met: int  # runs in which a step met 8


def figures(sizes, rule, runs, most, **options):
    """Of so many runs of so many enqueues."""
    engine, careful = RULES[rule]
    hosts = [Host(sizes, engine, seed, careful, **options) for seed in range(runs)]
    dry = [host.ended for host in hosts if host.play(most)]
    return Figures(len(dry), sorted(dry)[:: max(1, len(dry) - 1)], sum(host.met > 0 for host in hosts))


SIZES = ((2, 16, 3), (4, 24, 4), (8, 64, 16))
ROOM_SIZES = ((2, 16, 3), (2, 24, 4), (4, 16, 3))


def main(arguments):
    if 'stopped' in arguments:
        engines = (Before, im.Intake, Narrower, Between)
        for B, N, P in SIZES:
            for phase in range(2, 12):
                ended = [stopped_feeder((B, N, P), engine, phase, 3 * B * N, 5_000) for engine in engines]
                print('stopped before phase', phase, (B, N, P), *zip([engine.__name__ for engine in engines], ended), flush=True)
    if 'room' in arguments:
        for sizes, rule, room in itertools.product(ROOM_SIZES, RULES, (has_room_from_head, has_room)):
            print(room.__name__, sizes, rule, figures(sizes, rule, 40, 1_000, room=room), flush=True)
        for sizes in ROOM_SIZES:
            print('nobody stands still', sizes, figures(sizes, 'document 02', 40, 1_000, room=has_room_from_head, stands=0), flush=True)


if __name__ == '__main__':
    main(sys.argv[1:])
