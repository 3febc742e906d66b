"""The model of the comparison: by hand, the theorem of document 02, U10, tried on small recordings with the judge that tries all orders, and the
test of the crates' definitions in one pass over the second recording against every two calls."""

import random
import unittest

import comparison_model as cm
import judge_model as jm
import recordings
from histories import DEQ, EMPTY, done, enq, item, run_of_calls
from judge_model import flatten
from test_judge import random_history

RUN = [enq(1), done(1), DEQ, item(1)]
SMALL = 6  # events of the runs of which all pairs of interleavings are tried


def place(history, thread, rank):
    """The place in a history of a thread's event of a rank, both counted from 1; 0 where it has no such event."""
    places = [k for k, event in enumerate(history, 1) if event[1] == thread]
    return places[rank - 1] if rank <= len(places) else 0


def in_one_pass(first, second):
    """`keeps_precedence` of crates/equivalence/specs/Tests.antt: every start of the second comes in the first, too, after the ends that
    were before it."""
    latest_end, ranks = 0, dict.fromkeys(cm.THREADS, 0)
    for event in second:
        ranks[event[1]] += 1
        at = place(first, event[1], ranks[event[1]])
        if not recordings.starts(event):
            latest_end = max(latest_end, at)
        elif not latest_end < at:
            return False
    return True


class ByHand(unittest.TestCase):
    """Pairs whose replies are written by hand."""

    OTHERS = [enq(1), DEQ, done(1), item(1)]

    PAIRS = [
        ([], [], 'same', (1, 0)),
        ([], RUN, 'other', (2, 0)),
        (RUN, [], 'other', (1, 0)),
        (RUN, RUN, 'same', (1, 16)),
        (RUN, OTHERS, 'same', (1, 4)),
        (RUN[:3], RUN, 'other', (2, 12)),
        (RUN, RUN[:3], 'other', (1, 12)),
        (RUN[:3], OTHERS, 'other', (2, 4)),
        (RUN, [*RUN[:3], item(1, 8)], 'other', (1, 12)),
        (RUN, [enq(1, 2), *RUN[1:]], ('refused', 2, 13), (1, 16)),
        (RUN[:2], [enq(1, 2), done(1, 2)], 'other', (1, 0)),
        ([EMPTY], RUN, ('refused', 1, 13), (1, 4)),
        (RUN, [EMPTY], ('refused', 2, 13), (1, 16)),
        ([EMPTY], [enq(0)], ('refused', 1, 13), (1, 4)),
        ([], [enq(0)], ('refused', 2, 12), (1, 0)),
    ]

    def test_pairs(self):
        """A reply or a rest that is not document 02's: the order of the checks, which recording, whose rest, from which word."""
        for first, second, reply, rest in self.PAIRS:
            self.assertEqual(cm.compare(flatten(first), flatten(second)), (reply, rest), (first, second))

    def test_lengths(self):
        """A length that is no multiple of four, in either recording."""
        words = flatten(RUN)
        self.assertEqual(cm.compare(words[:15], words[:13]), (('refused', 1, 10), (1, 15)))
        self.assertEqual(cm.compare(words, words[:13]), (('refused', 2, 10), (1, 16)))
        self.assertEqual(cm.part(words, words[:13]), [])
        self.assertEqual(cm.part(words, words[:8]), words[8:])
        self.assertEqual(cm.part(words[:8], words), words[8:])

    def test_precedence(self):
        """Which of two calls must precede the other, and in which recording; equal recordings, and what overlaps more in the second."""
        for first, second, keeps in (
            (RUN, RUN, True),
            (RUN, self.OTHERS, True),
            (self.OTHERS, RUN, False),
            ([enq(1), DEQ], [DEQ, enq(1)], True),
            ([DEQ, enq(1), EMPTY], [DEQ, EMPTY, enq(1)], False),
            ([enq(1), enq(2, 2), done(1), done(2, 2)], [enq(2, 2), enq(1), done(2, 2), done(1)], True),
            ([enq(1), done(1), enq(2, 2), done(2, 2)], [enq(2, 2), done(2, 2), enq(1), done(1)], False),
        ):
            self.assertEqual(cm.keeps_precedence(first, second), keeps, (first, second))
            self.assertEqual(cm.trusted(flatten(first), flatten(second)), keeps)
        self.assertFalse(cm.trusted(flatten(RUN), flatten(RUN[:3])))
        self.assertFalse(cm.trusted([1], [1]))

    def test_shared_beginning(self):
        """A shared beginning that is not the longest: against all beginnings."""
        rng = random.Random(41)
        for _ in range(300):
            history = run_of_calls(rng, rng.randrange(12))
            for other in (recordings.drifted(rng, history), recordings.shuffled(rng, history)[: rng.randrange(12)]):
                shared = max(k for k in range(min(len(history), len(other)) + 1) if history[:k] == other[:k])
                self.assertEqual(cm.shared_events(history, other), shared)


class Pairs(unittest.TestCase):
    """The theorem and the test in one pass, on pairs of recordings with the same calls."""

    def assert_carries_over(self, first, second, explained=None):
        """Both tests of the precedence agree, and the theorem holds of the pair. Whether the precedence is kept, and whether each is
        explained."""
        explained = explained or jm.explained_by_all_orders
        keeps = cm.keeps_precedence(first, second)
        self.assertEqual(in_one_pass(first, second), keeps, (first, second))
        self.assertTrue(cm.same_calls(first, second))
        verdicts = (keeps, explained(first), explained(second))
        self.assertNotEqual(verdicts, (True, True, False), (first, second))
        return verdicts

    def assert_all_reached(self, seen, least):
        """Too few pairs of which a premise, the conclusion or neither holds."""
        for verdicts in ((True, True, True), (True, False, True), (True, False, False), (False, True, True), (False, True, False)):
            self.assertGreater(seen.count(verdicts), least, verdicts)

    def test_small_runs(self):
        """All pairs of interleavings of small runs."""
        seen = []
        for threads in recordings.small_runs():
            some = list(recordings.interleavings(threads)) if sum(map(len, threads)) <= SMALL else []
            verdicts = {tuple(history): jm.explained_by_all_orders(history) for history in some}
            explained = lambda history: verdicts[tuple(history)]
            seen += [self.assert_carries_over(first, second, explained) for first in some for second in some]
        self.assertGreater(len(seen), 50_000)
        self.assert_all_reached(seen, 100)

    def test_interleavings_of_longer_runs(self):
        """Some interleavings of the small runs that are longer."""
        rng, seen = random.Random(42), []
        for threads in recordings.small_runs():
            if sum(map(len, threads)) > SMALL:
                history = [event for events in threads for event in events]
                for _ in range(60):
                    first, second = recordings.shuffled(rng, history), recordings.shuffled(rng, history)
                    seen.append(self.assert_carries_over(first, rng.choice((second, recordings.overlapping_more(rng, first, 20)))))
        self.assert_all_reached(seen, 50)

    def test_random_runs(self):
        """Runs of up to thirteen events and three producers, by clocks that drift a little, in any order, or with more overlaps."""
        rng, seen = random.Random(43), []
        for _ in range(6_000):
            first = random_history(rng)
            if rng.random() < 0.3:
                first = recordings.shuffled(rng, first)
            for second in (recordings.drifted(rng, first), recordings.shuffled(rng, first), recordings.overlapping_more(rng, first, 12)):
                seen.append(self.assert_carries_over(first, second))
        self.assert_all_reached(seen, 100)

    def test_long_runs(self):
        """The test in one pass on longer runs, of up to sixteen producers."""
        rng, seen = random.Random(44), []
        for _ in range(400):
            first = run_of_calls(rng, rng.randrange(80), rng.choice((1, 3, 16)))
            for second in (recordings.drifted(rng, first, rng.choice((1, 3))), recordings.overlapping_more(rng, first, 200)):
                seen.append(self.assert_carries_over(first, second, jm.explained_by_mark))
        self.assertGreater(seen.count((True, True, True)), 100)
        self.assertGreater(sum(not keeps for keeps, *_ in seen), 100)


class Premises(unittest.TestCase):
    """None of the premises can be left out: pairs of which all others hold and the conclusion does not."""

    def hold(self, first, second):
        """Whether both have the same calls, whether the precedence is kept, and whether each is explained; by the test in one pass, too."""
        self.assertEqual((cm.refusal(flatten(first)), cm.refusal(flatten(second))), (0, 0))
        keeps = cm.keeps_precedence(first, second)
        self.assertEqual(in_one_pass(first, second), keeps)
        return (cm.same_calls(first, second), keeps, jm.explained_by_all_orders(first), jm.explained_by_all_orders(second))

    def test_same_calls(self):
        """A theorem without the same calls: another answer, another value, or another call number."""
        empty = [enq(1), done(1), DEQ, EMPTY]
        for second in (empty, [enq(1, value=8), done(1, value=8), DEQ, item(1)], [enq(2), done(2), DEQ, item(1)]):
            self.assertEqual(self.hold(RUN, second), (False, True, True, False), second)

    def test_precedence(self):
        """A theorem without the precedence: two enqueues that overlap in the first alone, and a dequeue that does."""
        taken = [DEQ, item(2), DEQ, item(1)]
        both = [enq(1), enq(2, 2), done(1), done(2, 2)]
        apart = [enq(1), done(1), enq(2, 2), done(2, 2)]
        self.assertEqual(self.hold(both + taken, apart + taken), (True, False, True, False))
        self.assertEqual(self.hold([enq(1), DEQ, done(1), EMPTY], [enq(1), done(1), DEQ, EMPTY]), (True, False, True, False))

    def test_first_explained(self):
        """A theorem without the first: a recording and itself."""
        unexplained = [enq(1), done(1), DEQ, EMPTY]
        self.assertEqual(self.hold(unexplained, unexplained), (True, True, False, False))

    def test_the_other_way_round(self):
        """A theorem whose premise has the two recordings swapped."""
        first, second = [enq(1), DEQ, done(1), EMPTY], [enq(1), done(1), DEQ, EMPTY]
        self.assertTrue(cm.keeps_precedence(second, first))
        self.assertEqual(self.hold(first, second)[2:], (True, False))


if __name__ == '__main__':
    unittest.main()
