"""The order that the proved judge writes: a linearization by the check beside it, and by the independent one. Any will do, so no test
says which; that it is the one of its definition is of test_definitions.py."""

import random
import unittest

import judge_library as jl
import judge_model as jm
from histories import SHAPES, run_of_calls
from judge_model import flatten
from test_judge import every_history, random_history


class Order(unittest.TestCase):
    @classmethod
    def setUpClass(cls):
        cls.library = jl.load()

    def order_of(self, history):
        """The order of an explained history, passed by both checks; None for another."""
        words = flatten(history)
        judged = jl.judge_with_room(self.library, words)
        if judged.word != 'explained':
            self.assertEqual(judged.word, 'unexplained', history[:50])
            return None
        numbers = judged.numbers()
        self.assertTrue(jm.is_order(history, numbers), (history[:50], numbers[:50]))
        self.assertEqual(jl.check(self.library, words, numbers), 'yes', (history[:50], numbers[:50]))
        return numbers

    def among_all(self, history):
        """The order of a small history, which is one of all linearizations, exactly where there are some."""
        numbers, every = self.order_of(history), jm.orders(history)
        self.assertEqual(numbers is not None, bool(every), history)
        self.assertTrue(numbers is None or tuple(numbers) in every, (history, numbers))
        return numbers

    def test_every_small_history(self):
        """A verdict or an order wrong on some valid history of at most seven events, of two producers and three items: a call under
        way that was taken from left out, a number counted from 0, a call before one that ended before it started."""
        found = [self.among_all(history) for history in every_history(7)]
        self.assertGreater(found.count(None), 5_000)
        self.assertGreater(len(set(map(tuple, filter(None, found)))), 30)

    def test_small_random_histories(self):
        """The same of up to thirteen events and three producers, with other numbers than the starting ones."""
        rng = random.Random(11)
        found = [self.among_all(random_history(rng)) for _ in range(2_000)]
        self.assertGreater(sum(numbers is not None for numbers in found), 500)

    def test_random_histories(self):
        """An order wrong in the long: up to 4,096 events, one to sixteen producers, items taken in starting order or not."""
        rng, kinds, longest = random.Random(12), set(), 0
        for k in range(240):
            events = rng.randrange(14, 200) if k % 8 else rng.randrange(2_000, 4_097)
            history = run_of_calls(rng, events, rng.choice([1, 4, 16]), 0, 1 if k % 8 == 0 else rng.choice([1, 1, 2]))
            numbers = self.order_of(history)
            if numbers is not None:
                kept = set(numbers)
                kinds |= {(call.kind, call.end > 0) for number, call in enumerate(jm.calls_of(history), 1) if number in kept}
                longest = max(longest, len(numbers))
        self.assertGreater(longest, 1_900)
        self.assertLessEqual({(jm.ENQUEUE, True), (jm.DEQUEUE, True), (jm.ENQUEUE, False)}, kinds)

    def test_shapes(self):
        """An order wrong on one of the shapes that a pass could stumble over, short, middle and of 4,096 events."""
        for shape in SHAPES:
            for events in (40, 150, 1_000, jm.MAX_EVENTS):
                with self.subTest(shape=shape.__name__, events=events):
                    self.assertIsNotNone(self.order_of(shape(events)))

    def test_cut_histories(self):
        """An order wrong on a history that stops anywhere: calls under way of every kind, taken from or not."""
        for shape in SHAPES:
            history = shape(160)
            for events in range(len(history)):
                self.assertIsNotNone(self.order_of(history[:events]), (shape.__name__, events))


if __name__ == '__main__':
    unittest.main()
