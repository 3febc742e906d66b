"""The model's own orders: all of them by hand, one looked at against all, the late one against the sentence that it is made from."""

import itertools
import random
import unittest

import judge_model as jm
from histories import DEQ, EMPTY, SHAPES, done, enq, item, run_of_calls
from judge_model import flatten
from test_judge import every_history, random_history


class AllOrders(unittest.TestCase):
    """Histories whose linearizations are written by hand."""

    RUNS = [
        ([], {()}),
        ([enq(1)], {(), (1,)}),
        ([DEQ], {(), (1,)}),
        ([DEQ, EMPTY], {(1,)}),
        ([enq(1), done(1), DEQ, EMPTY], set()),
        ([enq(1), done(1), DEQ], {(1,), (1, 2)}),
        ([enq(1), DEQ], {(), (1,), (2,), (1, 2), (2, 1)}),
        ([enq(1), DEQ, item(1)], {(1, 2)}),
        ([enq(1), DEQ, item(1, 8)], set()),
        ([enq(1), DEQ, done(1), EMPTY], {(2, 1)}),
        ([enq(1), enq(2, 2), done(1), done(2, 2)], {(1, 2), (2, 1)}),
        ([enq(1), done(1), enq(2), DEQ, item(2)], set()),
        ([enq(1), done(1), enq(2), DEQ, item(1)], {(1, 3), (1, 2, 3), (1, 3, 2)}),
    ]

    def test_by_hand(self):
        """An ended call dropped, one under way always kept or always dropped, an order that time forbids or that the queue does, one
        that neither does and that is left out; numbers counted from 0."""
        for history, every in self.RUNS:
            self.assertEqual(jm.orders(history), every, history)

    def test_queue_lengths(self):
        """A length before its call instead of after it, or a dequeue of nothing that is counted."""
        history = [DEQ, EMPTY, enq(1), enq(2, 2), done(1), DEQ, item(1), DEQ]
        self.assertEqual(jm.queue_lengths(history, [1, 2, 3, 4, 5]), [0, 1, 2, 1, 0])
        self.assertEqual(jm.queue_lengths(history, [1, 2, 4, 5]), [0, 1, 0, 0])


class OneOrder(unittest.TestCase):
    """The look at one order against all of them."""

    def test_every_sequence_of_small_histories(self):
        """A clause of the check that is wrong or missing: the range, a number twice, an ended call, the time, the queue."""
        for history in every_history(5):
            every, calls = jm.orders(history), len(jm.calls_of(history))
            for length in range(min(calls, 3) + 2):
                for numbers in itertools.product(range(calls + 2), repeat=length):
                    self.assertEqual(jm.is_order(history, numbers), numbers in every, (history, numbers))

    def test_random_histories(self):
        """The same with up to thirteen events, on orders near to right."""
        rng, seen = random.Random(31), {True: 0, False: 0}
        for _ in range(2_000):
            history = random_history(rng)
            every = jm.orders(history)
            for numbers in rng.sample(sorted(every), min(len(every), 4)):
                k = rng.randrange(len(numbers) + 1)
                for other in (numbers, numbers[:k] + numbers[k + 1 :], (*numbers[:k], rng.randrange(9), *numbers[k:]), numbers[k:] + numbers[:k]):
                    self.assertEqual(jm.is_order(history, other), other in every, (history, other))
                    seen[other in every] += 1
        self.assertGreater(min(seen.values()), 1_000)

    def test_replies(self):
        """A refusal of the check that is not the judge's, or 11."""
        self.assertEqual(jm.check([], []), 'yes')
        self.assertEqual(jm.check(flatten([enq(1), done(1)]), []), 'no')
        self.assertEqual(jm.check(flatten([enq(1), done(1)]), [1]), 'yes')
        for words, number in (([1], 10), ([0] * 4 * 4_097, 10), ([0] * 4 * 4_096, 12), (flatten([DEQ, DEQ]), 13)):
            self.assertEqual(jm.check(words, [1]), ('refused', number))


class LateOrder(unittest.TestCase):
    """The order in which each enqueue stands as late as it may."""

    def test_by_hand(self):
        """An enqueue before a dequeue that overlaps it, or behind one that started after it, or one behind it, had ended."""
        for history, numbers in (
            ([], []),
            ([enq(1), DEQ], []),
            ([enq(1), DEQ, done(1), EMPTY], [2, 1]),
            ([enq(1), DEQ, item(1)], [1, 2]),
            ([enq(1), done(1), enq(2), done(2), DEQ, item(1), enq(3), DEQ], [1, 2, 3]),
            ([enq(1), enq(2, 2), DEQ, item(2), done(1), DEQ, item(1), done(2, 2)], [2, 3, 1, 4]),
            ([enq(1), done(1), enq(2), enq(3, 2), done(3, 2), DEQ, item(1), DEQ, item(2), DEQ, item(3)], [1, 2, 3, 4, 5, 6]),
            ([enq(1), done(1), enq(2), enq(3, 2), DEQ, item(1), done(3, 2), DEQ, item(2), DEQ, item(3)], [1, 4, 2, 3, 5, 6]),
        ):
            self.assertEqual(jm.late_order(history), numbers, history)

    def test_every_small_history(self):
        """Another order than the last of those that keep the same calls, the dequeues by their starts, the enqueues as they are taken and
        then by their starts: some other one puts an enqueue behind more dequeues."""
        tried = 0
        for history in every_history(7):
            every = jm.orders(history)
            if not every:
                continue
            calls = jm.calls_of(history)
            dequeues = [n for n, call in enumerate(calls, 1) if call.kind == jm.DEQUEUE and call.end]
            items = [calls[n - 1].item for n in dequeues if calls[n - 1].item]
            enqueues = {call.item: n for n, call in enumerate(calls, 1) if call.kind == jm.ENQUEUE}
            line = [enqueues.pop(item) for item in items]
            line += [n for n in sorted(enqueues.values()) if calls[n - 1].end]
            others = [[o.index(n) - line.index(n) for n in line] for o in every
                      if [n for n in o if n in dequeues] == dequeues and [n for n in o if n not in dequeues] == line]
            late = jm.late_order(history)
            self.assertIn(tuple(late), every)
            self.assertEqual([late.index(n) - line.index(n) for n in line], [max(before) for before in zip(*others)], history)
            tried += len(others) > 1
        self.assertGreater(tried, 500)

    def test_long_histories(self):
        """A late order of a longer history that is no linearization."""
        rng = random.Random(32)
        histories = [run_of_calls(rng, rng.randrange(200), rng.choice([1, 3, 16]), 0, 1) for _ in range(300)]
        for history in histories + [shape(events) for shape in SHAPES for events in (90, 600)]:
            self.assertTrue(jm.is_order(history, jm.late_order(history)), history)


if __name__ == '__main__':
    unittest.main()
