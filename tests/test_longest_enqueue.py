"""How long others can hold up an enqueue (document 02, U4): the longest enqueues, their steps, and their bound."""

import random
import unittest

import engine_library
import intake_model as im
import longest_enqueue as le
from longest_enqueue import OURS, Reduction, Run, accepted, construct, search, starts
from measures import most_enqueue_steps
from step_counts import Tally
from test_fold import stopped_front
from test_model import D, E, S, ShiftsOnlyAfterOwnLink, end, going, refused

# B, N, P, the accepted steps of the longest enqueue, and 5 x P + N + 6. With these sizes a search over every state, and
# with any number of starts, finds none that is longer: below,
SEARCHED = (
    (2, 2, 1, 9, 13),
    (2, 5, 1, 9, 16),
    (4, 2, 1, 9, 13),
    (2, 2, 2, 11, 18),
)
# and by longest_enqueue.py as a program, which takes from ten seconds to a minute.
SEARCHED_LONG = (
    (3, 2, 2, 11, 18),
    (4, 2, 2, 11, 18),
    (2, 3, 2, 11, 19),
    (2, 2, 3, 14, 23),
)
# With these there is none by the proof: they reach the number of `EnqueueEndsSooner` (crates/ordering).
PROVED = (
    (3, 3, 2, 11, 19),
    (2, 4, 2, 11, 20),
    (2, 5, 2, 12, 21),
    (3, 2, 3, 11, 23),
    (2, 2, 4, 16, 28),
    (3, 5, 4, 17, 31),
    (2, 8, 16, 50, 94),
    (2, 64, 16, 106, 150),
    (4, 64, 15, 86, 145),
    (8, 64, 16, 76, 150),
    (64, 64, 16, 71, 150),
)
ROWS = SEARCHED + SEARCHED_LONG + PROVED


def tallied(run, calls):
    """The replies of some calls, and what is wrong with their numbers of steps, which are counted in the list."""
    replies, tally, wrong = [], Tally(), []
    for call in calls:
        replies.append(run.call(call))
        if replies[-1][0] != 'refused':
            wrong += tally.add(call, replies[-1])
    return replies, wrong + tally.wrong(run.words)


class Kept(unittest.TestCase):
    """A run for each row: its last call ends an enqueue of so many steps."""

    def test_steps(self):
        """A run that does not take the steps of its row, by the last reply or counted in the list of calls."""
        for B, N, P, steps, _ in ROWS:
            calls = construct(B, N, P)
            replies, wrong = tallied(Run(B, N, P, starts(calls)), calls)
            self.assertEqual((calls[-1], replies[-1], wrong), (('s', OURS), ('end', steps), []), (B, N, P))
            started = max(k for k, call in enumerate(calls) if call[:2] == ('e', OURS))
            self.assertEqual(calls[started:].count(('s', OURS)), steps - 1)

    def test_bounds(self):
        """A row past one of its bounds, or with another."""
        for B, N, P, steps, bound in ROWS:
            self.assertEqual((steps, bound), (le.longest(B, N, P), le.bound(N, P)))
            self.assertLessEqual(steps, most_enqueue_steps(B, N, P))
            self.assertLess(most_enqueue_steps(B, N, P), bound)
        for B, N, P, steps, _ in PROVED:
            self.assertEqual(steps, most_enqueue_steps(B, N, P))

    def test_whole_model(self):
        """A run that is another where ranges are looked at, or where M is no more than its starts."""
        for B, N, P, _, _ in ROWS:
            if B == 64:
                continue  # half a minute
            calls = construct(B, N, P)
            run, recorder = Run(B, N, P, starts(calls)), im.Recorder(B, N, P, starts(calls))
            self.assertEqual(recorder.run(calls), [run.call(call) for call in calls])
            self.assertEqual(recorder.words, run.words)

    def test_engine(self):
        """An engine that answers such a run otherwise, or leaves other words."""
        library = engine_library.load()
        for B, N, P, steps, _ in ROWS:
            calls = construct(B, N, P)
            run = Run(B, N, P, starts(calls))
            engine = engine_library.Engine(library, [0] * len(run.words))
            self.assertEqual(engine.open((B, N, P, starts(calls))), 0)
            for call in calls:
                number, buffer = engine_library.expected(run.call(call))
                self.assertEqual((engine.call(call), list(engine.reply)), (number, buffer), (B, N, P))
            self.assertEqual((number, buffer[2]), (engine_library.END, steps))
            self.assertEqual(engine.words(), run.words)

    def test_other_sizes(self):
        """Sizes with which the construction takes more or fewer steps than are counted, or is the measure elsewhere
        than where it can be: with two producers or more, and four records or a last position of another index than 0."""
        for B, N, P in ((B, N, P) for B in (2, 3, 4, 5, 16) for N in range(2, 8) for P in range(1, 17)):
            calls = construct(B, N, P)
            run = Run(B, N, P, starts(calls))
            self.assertEqual([run.call(call) for call in calls][-1], ('end', le.longest(B, N, P)), (B, N, P))
            reached = P > 1 and (N > 3 or P % B != 1)
            self.assertEqual(le.longest(B, N, P) == most_enqueue_steps(B, N, P), reached, (B, N, P))


class Search(unittest.TestCase):
    """The search, and the words it goes by."""

    def test_no_enqueue_is_longer(self):
        """A row with fewer steps than some enqueue takes; calls that lead there on reduced words alone."""
        for B, N, P, steps, _ in SEARCHED:
            found = search(B, N, P)
            self.assertEqual(found.steps, steps, (B, N, P))
            replies, wrong = tallied(im.Recorder(B, N, P, starts(found.calls)), found.calls)
            self.assertEqual((found.calls[-1], replies[-1], wrong), (('s', OURS), ('end', steps), []))

    def test_reduction(self):
        """A reduction that leaves out what some rule looks at. A call on reduced words is answered as on the words that
        were reduced, numbers aside, and leads to words that reduce to the same."""
        rng, lower, gaps = random.Random(24), 0, 0
        for run in range(60):
            words = Run(rng.randint(2, 3), rng.randint(2, 5), rng.randint(1, 4)).words
            if run % 3 == 0:
                words = stopped_front(lambda *sizes: im.Recorder(*sizes), N=rng.randint(4, 6)).words
            for k in range(160):
                if k % 20 == 0:
                    threads = rng.sample(range(words[2] + 1), rng.randint(1, words[2] + 1))
                reduction = Reduction(words)
                for call in le.moves(reduction.words()):
                    these, reduced = im.Intake(words), im.Intake(reduction.words())
                    replies = accepted(these, reduction.call(call)), accepted(reduced, call)
                    self.assertEqual(replies[0][0], replies[1][0])
                    self.assertEqual(Reduction(these.w).words(), Reduction(reduced.w).words())
                lower += reduction.down(reduction.last) > 0
                gaps += has_gap(reduction.words())
                these = im.Intake(words)
                accepted(these, list(le.moves(words))[rng.choice(threads)])
                words = these.w
        self.assertGreater(lower, 1_000)
        self.assertGreater(gaps, 500)


def has_gap(words):
    """Whether places along the list skip some."""
    places = sorted(p for p, use in zip(im.record_parts(words, im.PLACE), im.record_parts(words, im.USE)) if use == im.USE_LINKED)
    return places[-1] - places[0] >= len(places)


class GoesBackNowhere(im.Intake):
    """Phase 7 holds the same record again."""

    def back(self):
        self.put(im.BACK, 1)
        return self.choose()


# Producer 3 has linked the record that producer 1 needs, and stands between phases 5 and 6.
STOPPED_LINKER = E(1, 7) + S(1, 3) + E(2, 7) + S(2, 2) + E(3, 7) + S(3, 4) + E(1, 7)
# Producer 1 has a position before the tail record.
LATE = E(1, 7) + E(2, 7) + S(2, 5) + E(2, 7) + S(2, 6)


class WhatTheBoundShutsOut(unittest.TestCase):
    """Wrong engines with an enqueue that never ends."""

    def test_past_the_bound(self):
        """A run too weak to tell them from the right one, where it ends: theirs is past its bound, and going."""
        self.assertEqual(stepped(im.Intake, STOPPED_LINKER), ('end', 8))
        self.assertEqual(stepped(ShiftsOnlyAfterOwnLink, STOPPED_LINKER), ('going', 24))
        self.assertEqual(stepped(im.Intake, LATE), ('end', 5))
        self.assertEqual(stepped(GoesBackNowhere, LATE), ('going', 24))

    def test_search(self):
        """A search that does not find such an enqueue."""
        for engine in (ShiftsOnlyAfterOwnLink, GoesBackNowhere):
            found = search(2, 2, 2, engine)
            self.assertEqual(im.Recorder(2, 2, 2, 99, engine=engine).run(found.calls)[-1], ('going', 19))

    def test_refused_with_8(self):
        """An enqueue that is refused with 8 more often than its bound, and whose number of steps grows by that."""
        recorder = im.Recorder(2, 2, 1, 5)
        for steps in (4, 6, 7, 5):
            recorder.run(E(1, 7) + S(1, steps - 1))
        self.assertEqual(recorder.run(E(1, 7) + S(1, 102))[1:], going(2, 3) + [refused(8)] * 100)
        recorder.run(D + S(0, 3) + D + S(0, 4))
        self.assertEqual(recorder.run(S(1, 6)), going(4, 8) + end(9))


def stepped(engine, calls):
    """The reply that ends the call of producer 1 after some calls, or the first past its bound, 23."""
    recorder = im.Recorder(2, 2, 3, 9, engine=engine)
    recorder.run(calls)
    reply = recorder.call(('s', 1))
    while reply[0] == 'going' and reply[1] <= 23:
        reply = recorder.call(('s', 1))
    return reply


if __name__ == '__main__':
    unittest.main()
