"""The proved comparison of two recordings against the independent version: the number, every word of the reply, what is lent, and the test of
the precedence."""

import ctypes
import itertools
import mmap
import random
import unittest

import comparison_library as cl
import comparison_model as cm
import judge_model as jm
import recordings
from histories import DEQ, EMPTY, SHAPES, damaged, done, enq, engine_like, falling_numbers, item, run_of_calls
from judge_model import flatten
from test_judge import random_history, with_another_answer

MOST_WORD = 2**32 - 1
MAP_NORESERVE = 0x4000  # Linux; Python has no name for it before 3.13
REFUSALS = [('refused', recording, number) for recording in (cm.FIRST, cm.SECOND) for number in (10, 12, 13)]


class Recordings(unittest.TestCase):
    """The library, lent two recordings."""

    @classmethod
    def setUpClass(cls):
        cls.library = cl.load()

    def setUp(self):
        self.seen = {}

    def hold(self, first, second):
        """The number and every word of the reply are the model's, those that are not said and those behind them stay, and so do both
        recordings; the precedence is the model's. The reply, and whether the precedence is kept."""
        one, two = cl.array(first), cl.array(second)
        number, reply = cm.for_c(first, second, cl.REPLY)
        keeps = cm.trusted(first, second)
        pair = (first[:80], second[:80])
        self.assertEqual(cl.compare_lent(self.library, one, two), (number, reply + cl.AFTER), pair)
        self.assertEqual(cl.keeps_lent(self.library, one, two), 0 if keeps else 1, pair)
        self.assertEqual((list(one), list(two)), (list(first), list(second)), pair)
        said = cm.compare(first, second)[0]
        for what in (said, keeps, (said, keeps), ('rest of', reply[1])):
            self.seen[what] = self.seen.get(what, 0) + 1
        return said, keeps

    def assert_seen(self, least, *kinds):
        """Each of these came up more often than that."""
        for kind in kinds:
            self.assertGreater(self.seen.get(kind, 0), least, (kind, self.seen))


class OneRun(Recordings):
    """Recordings of one run."""

    def test_clocks(self):
        """Events compared by their places instead of by thread and rank, an event passed over, a thread mistaken for another, a rest
        that begins elsewhere than at the first difference; a start held to the ends after it, or to those of the other recording."""
        rng = random.Random(61)
        for _ in range(2_000):
            first = random_history(rng) if rng.random() < 0.5 else run_of_calls(rng, rng.randrange(40), rng.choice((1, 3, 16)))
            for second in (recordings.drifted(rng, first), recordings.shuffled(rng, first), recordings.overlapping_more(rng, first, 30)):
                said, _ = self.hold(flatten(first), flatten(second))
                self.assertEqual(said, 'same')
        self.assert_seen(1_000, ('same', True), ('same', False))

    def test_every_small_run(self):
        """The same on every two interleavings of small runs."""
        for threads in recordings.small_runs():
            if sum(map(len, threads)) <= 5:
                some = [flatten(history) for history in recordings.interleavings(threads)]
                for first, second in itertools.product(some, repeat=2):
                    self.hold(first, second)
        self.assert_seen(1_000, ('same', True), ('same', False))

    def test_cut_ends(self):
        """Events that only one recording has, at its end: missed where the shorter ends; the rest of the wrong one, or of the second of
        two that are equally long; a beginning of the other."""
        rng = random.Random(62)
        for _ in range(1_000):
            run = run_of_calls(rng, rng.randrange(25), rng.choice((1, 3)))
            other = rng.choice((run, recordings.drifted(rng, run), recordings.shuffled(rng, run)))
            ends = [rng.randrange(len(run) + 1) for _ in range(2)]
            self.hold(flatten(run[: ends[0]]), flatten(other[: ends[1]]))
            self.hold(flatten(run[: ends[0]]), flatten(other[: ends[0]]))
        self.assert_seen(200, 'same', 'other', ('rest of', cm.FIRST), ('rest of', cm.SECOND))

    def test_every_beginning(self):
        """A word at which the rest begins that is off by one event: every beginning of a run, as the first and as the second."""
        words = flatten(engine_like(60, 5))
        for first, second in itertools.product(range(0, len(words) + 1, 4), repeat=2):
            said, _ = self.hold(words[:first], words[:second])
            self.assertEqual(said, 'same' if first == second else 'other')

    def test_one_difference(self):
        """A word of an event that is not compared, or an event, or the order of a thread's: another value or number of a call, another answer,
        another number of all items, two calls of one thread swapped."""
        rng = random.Random(63)
        for _ in range(400):
            run = run_of_calls(rng, rng.randrange(2, 90), 16)
            other = recordings.drifted(rng, run)
            number, bit = rng.choice(run)[2], 1 << rng.randrange(32)
            for changed in (
                with_another_answer(rng, other),
                recordings.with_calls_swapped(rng, other),
                [(*event[:3], event[3] ^ bit) if event[2] == number and number else event for event in other],
                [(*event[:2], event[2] ^ bit, event[3]) if event[2] == number and number else event for event in other],
                [(*event[:2], number, event[3]) if event[0] == jm.ITEM else event for event in other],
            ):
                self.hold(flatten(run), flatten(changed))
                self.hold(flatten(changed), flatten(run))
        self.assert_seen(200, 'same', 'other')

    def test_one_thread(self):
        """A thread that is not looked at, be it the consumer or the last producer: all agree but one, which has another value, one event
        less or none; and only one agrees."""
        run = engine_like(400, 16)
        for thread in cm.THREADS:
            last = max(k for k, event in enumerate(run) if event[1] == thread)
            others = lambda event: (*event[:3], event[3] + 1) if event[0] in (1, 2, 4) else event
            for second in (
                [others(event) if event[1] == thread else event for event in run],
                [event if event[1] == thread else others(event) for event in run],
                run[:last] + run[last + 1 :],
                [event for event in run if event[1] != thread],
                [event for event in run if event[1] == thread],
            ):
                for pair in ((run, second), (second, run)):
                    said, _ = self.hold(*map(flatten, pair))
                    self.assertEqual(said, 'other', thread)

    def test_moved_to_another_thread(self):
        """Events compared without their thread: one producer's calls made by another."""
        run = engine_like(100, 4)
        for a, b in itertools.permutations((1, 2, 3, 4, 16), 2):
            swap = {a: b, b: a}
            second = [(event[0], swap.get(event[1], event[1]), *event[2:]) for event in run]
            self.assertEqual(self.hold(flatten(run), flatten(second))[0], 'other')

    def test_the_same_words(self):
        """One array lent as both recordings."""
        for events in (0, 1, 60, jm.MAX_EVENTS):
            words = cl.array(flatten(engine_like(events)))
            self.assertEqual(cl.compare_lent(self.library, words, words), (0, (cl.REPLY[0], 1, 4 * events, cl.REPLY[3], *cl.AFTER)))
            self.assertEqual(cl.keeps_lent(self.library, words, words), 0)


class Refused(Recordings):
    """Recordings that are refused."""

    def test_damaged(self):
        """A refusal that is not the judge's, the second checked first or both at once, the wrong recording said, a rest that is not the
        empty end of the first, a precedence kept by what is refused."""
        rng = random.Random(64)
        for k in range(4_000):
            run = run_of_calls(rng, rng.randrange(16), rng.choice((1, 3)))
            first, second = flatten(run), flatten(recordings.drifted(rng, run))
            if k % 3 != 1:
                first = damaged(rng, run)
            if k % 3 != 0:
                second = damaged(rng, run)
            self.hold(first, second)
        self.assert_seen(20, 'same', 'other', *REFUSALS)

    def test_every_small_pair(self):
        """All of it, on every two recordings of at most two events over an alphabet in which each kind of event and of refusal comes up."""
        alphabet = [enq(1), done(1), enq(1, 16), enq(2, 16), done(1, value=8), DEQ, EMPTY, item(1), (3, 0, 0, 1), enq(1, 17)]
        some = [flatten(events) for length in range(3) for events in itertools.product(alphabet, repeat=length)]
        for first, second in itertools.product(some, repeat=2):
            self.hold(first, second)
        self.assert_seen(20, 'same', 'other', *(refusal for refusal in REFUSALS if refusal[2] > 10), ('rest of', cm.SECOND))

    def test_lengths(self):
        """10 for some other length, or after 12 and 13; a word of the empty end that is not the length of the first: every two lengths of
        up to nine words."""
        for words in ([3, 0, 0, 0, 5, 0, 0, 0, 3], [9] * 9):
            for first, second in itertools.product(range(10), repeat=2):
                self.hold(words[:first], words[:second])
        self.assert_seen(3, *REFUSALS[:2], 'same', 'other')

    def test_first_comes_first(self):
        """A refusal of the second that hides one of the first, whatever their numbers."""
        bad = {10: [[1], [0] * 4 * 4_097], 12: [flatten([enq(0)]), flatten([DEQ, EMPTY, (9, 9, 9, 9)])], 13: [flatten([EMPTY]), flatten([DEQ, DEQ])]}
        good = flatten(engine_like(20))
        for (one, firsts), (two, seconds) in itertools.product(bad.items(), repeat=2):
            for first, second in itertools.product(firsts, seconds):
                self.assertEqual(self.hold(first, second)[0], ('refused', 1, one))
            for second in seconds:
                self.assertEqual(self.hold(good, second)[0], ('refused', 2, two))
                self.assertEqual(self.hold(second, good)[0], ('refused', 1, two))
                self.assertEqual(self.hold([], second)[0], ('refused', 2, two))

    def test_late_refusals(self):
        """An event that is not checked, in either recording: one of 300 events changed."""
        rng, run = random.Random(65), engine_like(300, 16)
        for k in range(0, 300, 7):
            for event in ((0, *run[k][1:]), (run[k][0], 17, *run[k][2:]), (*run[k][:2], MOST_WORD, MOST_WORD), run[k - 1]):
                words = flatten([*run[:k], event, *run[k + 1 :]])
                self.hold(words, flatten(run))
                self.hold(flatten(recordings.drifted(rng, run)), words)
        self.assert_seen(20, *(refusal for refusal in REFUSALS if refusal[2] > 10))


class Longest(Recordings):
    """Recordings of as many events as there may be, and more."""

    def test_4096_events_pass_4097_do_not(self):
        """A limit that is off by one, in either recording; a length past it that is no multiple of four."""
        most, more = falling_numbers(jm.MAX_EVENTS), [DEQ]
        self.assertEqual(self.hold(flatten(most), flatten(most)), ('same', True))
        self.assertEqual(self.hold(flatten(most + more), flatten(most))[0], ('refused', 1, 10))
        self.assertEqual(self.hold(flatten(most), flatten(most + more))[0], ('refused', 2, 10))
        self.assertEqual(self.hold(flatten(most + more), flatten(most + more))[0], ('refused', 1, 10))
        self.assertEqual(self.hold(flatten(most)[:-1], flatten(most + more)[:-1])[0], ('refused', 1, 10))
        self.assertEqual(self.hold([0] * 100_000, [])[0], ('refused', 1, 10))

    def test_shapes(self):
        """An array that is too short for 4,096 events, or a place or a link cut to fewer bits: shapes that a pass could stumble over, by
        other clocks, cut by an event, and with the last one changed."""
        rng = random.Random(66)
        for k, shape in enumerate(SHAPES):
            run = shape(jm.MAX_EVENTS)
            others = (recordings.shuffled, recordings.drifted, lambda rng, run: recordings.overlapping_more(rng, run, 20_000))
            other = others[k % 3](rng, run)
            self.assertEqual(self.hold(flatten(run), flatten(other))[0], 'same', shape.__name__)
            self.assertEqual(self.hold(flatten(run), flatten(other[:-1]))[0], 'other', shape.__name__)
            self.hold(flatten(other), flatten(with_another_answer(rng, run)))
        self.assert_seen(1, ('same', True), ('same', False), 'other')

    def test_sixteen_producers(self):
        """The same of sixteen producers and the consumer, whose clocks drift a little or much; two events swapped near the end."""
        rng, run = random.Random(67), engine_like(jm.MAX_EVENTS, 16)
        for second in (run, recordings.drifted(rng, run, 0.9), recordings.drifted(rng, run, 60), recordings.overlapping_more(rng, run, 40_000)):
            self.assertEqual(self.hold(flatten(run), flatten(second))[0], 'same')
        self.hold(flatten(run), flatten([*run[:-2], run[-1], run[-2]]))
        self.assert_seen(0, ('same', True), ('same', False))

    def test_long_random_runs(self):
        """The same of up to a thousand events; half of the second recordings only overlap more."""
        rng = random.Random(68)
        for k in range(40):
            run = run_of_calls(rng, rng.randrange(1_000), rng.choice((1, 4, 16)))
            second = recordings.overlapping_more(rng, run, 3_000) if k % 2 else recordings.drifted(rng, run, rng.choice((2, 9)))
            self.hold(flatten(run), flatten(second))
        self.assert_seen(10, ('same', True), ('same', False))

    def test_more_words_than_a_word_counts(self):
        """A length that is cut to 32 bits: the empty end of a first recording of 4,294,967,295 words and more, none of which is there to be
        looked at."""
        try:
            memory = mmap.mmap(-1, 4 * (2**32 + 8), flags=mmap.MAP_PRIVATE | mmap.MAP_ANONYMOUS | MAP_NORESERVE)
        except OSError as error:
            self.skipTest(f'no room for so many words: {error}')
        words = ctypes.cast((ctypes.c_uint32 * 1).from_buffer(memory), cl.Words)
        few = cl.array(flatten(engine_like(8)))
        for length in (MOST_WORD - 1, MOST_WORD, 2**32, 2**32 + 4, 2**32 + 8):
            reply = cl.array(cl.REPLY)
            self.assertEqual(self.library.recordings_compare(words, length, few, len(few), reply), 10)
            self.assertEqual(tuple(reply), (1, 1, min(length, MOST_WORD), cl.REPLY[3]))
            self.assertEqual(self.library.recordings_compare(few, len(few), words, length, reply), 10)
            self.assertEqual(tuple(reply), (2, 1, len(few), cl.REPLY[3]))
            self.assertEqual(self.library.recordings_keep_precedence(words, length, words, length), 1)


class Trust(Recordings):
    """What a yes to the precedence is for."""

    def test_explained_carries_over(self):
        """A yes where the first is explained and the second is not, by the judge's own criterion: long runs."""
        rng = random.Random(69)
        for _ in range(600):
            first = run_of_calls(rng, rng.randrange(120), rng.choice((2, 5)), 0, 1)
            second = rng.choice((recordings.drifted(rng, first), recordings.shuffled(rng, first), recordings.overlapping_more(rng, first, 200)))
            kept = cl.keeps_lent(self.library, cl.array(flatten(first)), cl.array(flatten(second))) == 0
            verdicts = (kept, jm.explained_by_mark(first), jm.explained_by_mark(second))
            self.assertNotEqual(verdicts, (True, True, False), (first, second))
            self.seen[verdicts] = self.seen.get(verdicts, 0) + 1
        self.assert_seen(20, (True, True, True), (False, True, True), (False, True, False))


if __name__ == '__main__':
    unittest.main()
