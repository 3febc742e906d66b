"""The proved judge as a library for C, against the independent judge: its reply, its table entry by entry, and what it leaves
of the order's buffer. Which order it writes is of test_order.py."""

import itertools
import random
import unittest

import judge_library as jl
import judge_model as jm
from histories import DEQ, EMPTY, damaged, done, enq, falling_numbers, falling_then_in_order, item, run_of_calls, taken
from judge_model import flatten

MARK = 0xDEADBEEF


class Library(unittest.TestCase):
    """The library, lent a table and a buffer of which it must leave what it does not write."""

    @classmethod
    def setUpClass(cls):
        cls.library = jl.load()

    def hold(self, words, entries, order_words, decide):
        """The reply and every field of the table: a field in the wrong place, an entry too few or too many, one after
        them touched, or one past the end. Of the order: its words and those of the reply where the word is not `explained`, the words
        past the count and the other words of the reply where it is."""
        table = [(MARK, k, MARK, k) for k in range(entries + 2)]
        order = [MARK - k for k in range(order_words + 2)]
        judged = jl.judge(self.library, words, table, entries, order, order_words)
        reply = jm.judge(words, entries, decide, order_words)
        word, rows = (reply, []) if reply[0] == 'refused' else reply
        self.assertEqual(judged.word, word, words[:100])
        self.assertEqual(judged.rows, rows + table[len(rows) :], words)
        count = judged.reply[0] if word == 'explained' else 0
        self.assertLessEqual(count, len(rows), words)
        self.assertEqual(judged.order[count:], order[count:], words)
        self.assertEqual(judged.reply[1:] if word == 'explained' else judged.reply, jl.REPLY[1:] if word == 'explained' else jl.REPLY, words)
        return word


class Differential(Library):
    """Any words against the model."""

    def test_short_histories(self):
        """20,000 histories of up to 14 events, some damaged, against the judge that tries all orders."""
        rng, seen = random.Random(1), {}
        for k in range(20_000):
            history = run_of_calls(rng, rng.randrange(15), wrong=rng.choice([0, 0.1, 0.5]))
            words = damaged(rng, history) if k % 4 == 3 else flatten(history)
            entries = len(words) // 4 + rng.randrange(-1, 3) if k % 9 == 0 else len(words) // 4
            order_words = rng.randrange(len(words) // 4 + 2) if k % 7 == 0 else len(words) // 4
            word = self.hold(words, max(entries, 0), order_words, jm.explained_by_all_orders)
            seen[word] = seen.get(word, 0) + 1
        for word in ('explained', 'unexplained', *(('refused', number) for number in (10, 11, 12, 13, 16))):
            self.assertGreater(seen.get(word, 0), 100, seen)

    def test_every_short_word_list(self):
        """Every history of two events over a small alphabet, and every length up to 9 words."""
        alphabet = [(k, t, n, v) for k in range(7) for t in (0, 1, 17) for n in (0, 1) for v in (0, 1)]
        for pair in itertools.product(alphabet, repeat=2):
            self.hold(flatten(pair), 2, 2, jm.explained_by_all_orders)
        for length in range(10):
            self.hold([3, 0, 0, 0, 5, 0, 0, 0, 3][:length], 4, 4, jm.explained_by_all_orders)

    def test_long_histories(self):
        """Long histories against the polynomial check: the fast look-ups, at rising and at shuffled numbers."""
        rng, seen = random.Random(2), {}
        for _ in range(300):
            events, producers = rng.randrange(15, 1500), rng.choice([1, 4, 16])
            history = run_of_calls(rng, events, producers, rng.choice([0, 0, 0.002]), rng.choice([1, 1, 2]))
            word = self.hold(flatten(history), len(history), len(history), jm.explained_by_mark)
            seen[word] = seen.get(word, 0) + 1
        self.assertGreater(seen['explained'], 20, seen)
        self.assertGreater(seen['unexplained'], 20, seen)

    def test_numbers_of_one_remainder(self):
        """A number that is taken for another of its remainder, or missed because of one, be it by the number of the marks, 4,078, or by
        another divisor near it or near 2^32: each is started, ended and taken, and the last start has a new number or one of those before."""
        most, seen = 2**32 - 1, {}
        for step in (1, 2, 2039, 4077, 4078, 4079, 4096, 2**16, 2**31 - 1):
            for first in (1, 2, 4077, 4078, 4079, 2**31, most - step, most - 2 * step, most):
                near = {first + k * step for k in range(-3, 4)} | {first % 4078, first % 4078 + 4078, most - most % 4078, most}
                numbers = sorted(number for number in near if 0 < number <= most)
                for last in numbers:
                    others = [number for number in numbers if number != last]
                    for before in (others, others[::-1], [last, *others], [*reversed(others), last]):
                        history = [*(event for k in before for event in (enq(k), done(k), DEQ, item(k))), enq(last)]
                        word = self.hold(flatten(history), len(history), len(history), jm.explained_by_mark)
                        self.assertEqual(word, ('refused', 13) if last in before else 'explained')
                        seen[word] = seen.get(word, 0) + 1
        self.assertGreater(min(seen.values()), 500, seen)

    def test_one_of_many_started_twice(self):
        """A mark that goes missing among many: 1,000 numbers in a row or from all words, shuffled, and one more, new or one of them."""
        rng = random.Random(5)
        for numbers in (range(1, 4079), range(3000, 7078), range(2**32 - 4078, 2**32), range(1, 2**32)):
            for _ in range(10):
                *before, new = rng.sample(numbers, 1001)
                calls = [event for k in before for event in (enq(k), done(k))]
                for last, word in ((new, 'explained'), (rng.choice(before), ('refused', 13)), (before[0], ('refused', 13))):
                    history = [*calls, enq(last)]
                    self.assertEqual(self.hold(flatten(history), len(history), len(history), jm.explained_by_mark), word)

    def test_longest_histories(self):
        """4,096 events of each shape that a search could stumble over, and 4,097."""
        shapes = {
            'explained': [event for k in range(1, 1025) for event in (enq(k), done(k), DEQ, item(k))],
            'unexplained': falling_numbers(2048) + taken(range(1, 1025)),
        }
        for word, history in shapes.items():
            self.assertEqual(self.hold(flatten(history), 4096, 4096, jm.explained_by_mark), word)
            self.assertEqual(self.hold(flatten(history + [DEQ]), 5000, 5000, None), ('refused', 10))
        in_order = falling_then_in_order(4096)
        self.assertEqual(self.hold(flatten(in_order), 4096, 4096, jm.explained_by_mark), 'explained')
        self.assertEqual(self.hold(flatten([DEQ, EMPTY] * 2048), 4096, 2048, jm.explained_by_mark), 'explained')
        self.assertEqual(self.hold(flatten([DEQ, EMPTY] * 2048), 4095, 2048, None), ('refused', 11))
        self.assertEqual(self.hold(flatten([DEQ, EMPTY] * 2048), 4096, 2047, None), ('refused', 16))


class Buffers(Library):
    """The order's buffer, short, enough and longer."""

    def test_lengths(self):
        """A length that is off by one, or compared with the events, with the ended calls or with the calls that are kept: up to two
        words too few and too many, on explained and unexplained histories with calls under way."""
        rng, seen = random.Random(4), set()
        for _ in range(400):
            history = run_of_calls(rng, rng.randrange(1, 40), 4, rng.choice([0, 0.3]), 1)
            started = len(jm.calls_of(history))
            for order_words in range(max(started - 2, 0), started + 3):
                word = self.hold(flatten(history), len(history), order_words, jm.explained_by_mark)
                seen.add((word, order_words - started))
        for word, least in (('explained', 0), ('unexplained', 0), (('refused', 16), -2)):
            self.assertLessEqual({(word, k) for k in range(least, least + 2)}, seen)

    def test_16_comes_last(self):
        """16 before 10, 11, 12 or 13, be it at the last event, or only where the history is explained."""
        calls = falling_numbers(40)
        for words, entries, number in (
            (flatten(calls)[:-1], 40, 10),
            (flatten(calls), 39, 11),
            (flatten([*calls, (3, 0, 0, 1)]), 41, 12),
            (flatten([*calls, EMPTY]), 41, 13),
            (flatten([*calls, DEQ, DEQ]), 42, 13),
            (flatten(calls), 40, 16),
            (flatten([*calls, DEQ, EMPTY]), 42, 16),
        ):
            for order_words in (0, 1, 19):
                self.assertEqual(self.hold(words, entries, order_words, jm.explained_by_mark), ('refused', number))

    def test_no_words(self):
        """A history without calls that needs a word, or an order of no words that is not counted."""
        for order_words in (0, 1, 5):
            judged = jl.judge(self.library, [], [], 0, [MARK] * 5, order_words)
            self.assertEqual(judged, ('explained', [], [MARK] * 5, (0, *jl.REPLY[1:])))


if __name__ == '__main__':
    unittest.main()
