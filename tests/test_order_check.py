"""The proved check of an order against the independent one: every short order of small histories, damaged orders of long ones, and what
it refuses."""

import functools
import itertools
import random
import unittest

import judge_library as jl
import judge_model as jm
from histories import DEQ, EMPTY, SHAPES, damaged, damaged_orders, done, enq, falling_numbers, item, run_of_calls
from judge_model import flatten
from test_judge import every_history, with_another_answer

MOST = 2**32 - 1


@functools.cache
def sequences(calls, repeats):
    """Every sequence of starting numbers of so many calls, none twice; or every short one of those numbers, 0 and the next. Each with
    its words for C."""
    if repeats:
        longest = calls + 1 if calls < 4 else calls
        some = (s for length in range(longest + 1) for s in itertools.product(range(calls + 2), repeat=length))
    else:
        some = (s for length in range(calls + 1) for s in itertools.permutations(range(1, calls + 1), length))
    return [(numbers, jl.array(numbers)) for numbers in some]


class Check(unittest.TestCase):
    @classmethod
    def setUpClass(cls):
        cls.library = jl.load()

    def hold(self, words, numbers):
        """The reply is the model's, and the words that were lent are as they were."""
        lent, order = jl.array(words), jl.array(numbers)
        answer = self.library.order_check(lent, len(words), order, len(numbers))
        expected = jm.check(words, numbers)
        self.assertEqual(jl.ANSWERS.get(answer, ('refused', answer)), expected, (words[:200], numbers[:50]))
        self.assertEqual((list(lent), list(order)), (list(words), list(numbers)))
        return expected

    def assert_all(self, histories, repeats):
        """The check says yes to exactly the linearizations, of all sequences of numbers. How many it said yes and no to."""
        seen = {0: 0, 1: 0}
        for history in histories:
            words, every = jl.array(flatten(history)), jm.orders(history)
            for numbers, lent in sequences(len(jm.calls_of(history)), repeats):
                answer = self.library.order_check(words, len(words), lent, len(numbers))
                if answer != (numbers not in every):
                    self.fail((history, numbers, answer))
                seen[answer] += 1
        return seen

    def test_every_sequence_of_small_histories(self):
        """A number out of range or twice that is let through, and all that the next test would catch: every short sequence, of every
        history of at most five events."""
        seen = self.assert_all(every_history(5), True)
        self.assertGreater(seen[0], 1_000)
        self.assertGreater(seen[1], 500_000)

    def test_every_order_of_small_histories(self):
        """An order turned down that is a linearization, or the other way round: an ended call left out, one before a call that ended
        before it started, an item from elsewhere than the front, an empty answer beside an item, a call under way that must not be
        kept, or that removes nothing. Every sequence of different numbers, of every history of at most seven events."""
        seen = self.assert_all(every_history(7), False)
        self.assertGreater(seen[0], 10_000)
        self.assertGreater(seen[1], 1_000_000)

    def test_damaged_orders(self):
        """The same in the long: orders with a number changed, dropped, repeated, moved, added or cut to fewer bits, more words than
        calls, none."""
        rng, seen = random.Random(21), {'yes': 0, 'no': 0}
        for k in range(150):
            events = rng.randrange(100) if k % 10 else rng.randrange(2_000)
            history = run_of_calls(rng, events, rng.choice([1, 3, 16]), 0, 1)
            numbers, words = jm.late_order(history), flatten(history)
            self.assertEqual(self.hold(words, numbers), 'yes')
            for other in damaged_orders(rng, numbers, len(jm.calls_of(history))):
                seen[self.hold(words, other)] += 1
        self.assertGreater(seen['yes'], 80, seen)
        self.assertGreater(seen['no'], 2_000, seen)

    def test_damaged_answers(self):
        """An item of another value or number, or an answer from elsewhere, let through: orders of a history, for another with one
        answer changed."""
        rng, seen = random.Random(22), {'yes': 0, 'no': 0}
        for _ in range(1_000):
            history = run_of_calls(rng, rng.randrange(40), 3, 0, 1)
            numbers, other = jm.late_order(history), with_another_answer(rng, history)
            seen[self.hold(flatten(other), numbers)] += 1
            k = rng.choice([k for k, event in enumerate(history) if event[0] == 4] or [None])
            if k is not None:
                number, value = history[k][2:]
                seen[self.hold(flatten([*history[:k], item(number, value ^ 1 << rng.randrange(32)), *history[k + 1 :]]), numbers)] += 1
        self.assertGreater(min(seen['yes'], seen['no']), 50, seen)

    def test_shapes(self):
        """11, which the check has no table for, or a wrong answer on one of the shapes that a pass could stumble over: short ones and
        up to 4,096 events, with their orders and damaged ones."""
        rng = random.Random(23)
        for shape in SHAPES:
            for events in (*range(0, 41, 3), 1_000, 2_048, 2_049, 4_095, jm.MAX_EVENTS):
                history = shape(max(events, 64))[:events]
                numbers, words = jm.late_order(history), flatten(history)
                self.assertEqual(self.hold(words, numbers), 'yes', (shape.__name__, events))
                for other in itertools.islice(damaged_orders(rng, numbers, len(jm.calls_of(history))), 0, None, 1 if events < 41 else 7):
                    self.hold(words, other)

    def test_more_words_than_calls(self):
        """A buffer as long as a history may have calls that is run over, or an end of the order that is not looked at."""
        history = falling_numbers(jm.MAX_EVENTS)
        for calls, words in ((2_048, flatten(history)), (0, [])):
            numbers = list(range(1, calls + 1))
            for more in (1, 2_048, 2_049, 100_000):
                self.assertEqual(self.hold(words, numbers + numbers[-1:] * more), 'no' if calls else 'yes')
                self.assertEqual(self.hold(words, numbers + [MOST] * more), 'no')

    def test_refusals(self):
        """10, 12 or 13 left out, in another order, or hidden by an order that is none; 11 or 16 instead of them."""
        calls = falling_numbers(40)
        for words, number in (
            *((flatten(calls)[:length], 10) for length in (1, 2, 3, 5, 159)),
            ([0] * 4 * 4_097, 10),
            (flatten([*calls, (3, 0, 0, 1), DEQ, DEQ]), 12),
            (flatten([*calls, EMPTY, (9, 9, 9, 9)]), 13),
            (flatten([enq(1), done(1), enq(1)]), 13),
        ):
            for numbers in ([], [1], list(range(1, 21)), [MOST] * 30, [0] * 5_000):
                self.assertEqual(self.hold(words, numbers), ('refused', number))

    def test_damaged_histories(self):
        """A refusal that is not the model's: words changed, dropped and repeated."""
        rng, seen = random.Random(24), {}
        for _ in range(4_000):
            history = run_of_calls(rng, rng.randrange(15), wrong=0)
            reply = self.hold(damaged(rng, history), jm.late_order(history))
            seen[reply] = seen.get(reply, 0) + 1
        for reply in ('yes', 'no', ('refused', 10), ('refused', 12), ('refused', 13)):
            self.assertGreater(seen.get(reply, 0), 20, seen)
        self.assertEqual(len(seen), 5)


if __name__ == '__main__':
    unittest.main()
