"""The proved census against the model: the number of each call, every word of the board, of the rows and of the reply, and what stands before
and behind them."""

import ctypes
import itertools
import mmap
import random
import unittest

import census_boards as cb
import census_library as cl
import census_model as cm

MAP_NORESERVE = 0x4000  # Linux; Python has no name for it before 3.13
MOST_ITEM = 8 * cm.BEDS  # the first value of a bed that there is not
VALUES = [*range(MOST_ITEM + 3_000), *(2**k + j for k in range(13, 32) for j in (-1, 0, 1, 4, 5)), 2**32 - 8, 2**32 - 4, cb.MOST_WORD]
ROWS = cm.rows_of(dict.fromkeys(cm.KEYS, 1))
CALLS = [('take', 8 * 300 + 1), ('table', ROWS), ('count', 2), ('take', 8 * 300 + 5), ('table', []), ('table', ROWS[3:] + ROWS[-3:]), ('count', 4)]
NUMBERS = [0, 0, 0, 19, 20, 20, 21]  # of these on a board in range


class Boards(unittest.TestCase):
    """The library, lent boards."""

    @classmethod
    def setUpClass(cls):
        cls.library = cl.load()

    def setUp(self):
        self.seen = {}

    def step(self, lent, board, call):
        """A call on a lent board that has the words of this one, which the model changes: the number is the model's, and so is every word.
        The number."""
        reply, said = list(cl.REPLY), cl.Lent(cl.REPLY)
        expected = cm.made(board, call, reply)
        self.assertEqual(cl.made(self.library, lent, call, said), expected, call)
        self.assertEqual(lent.now(), cl.guarded(board), call)
        self.assertEqual(said.now(), cl.guarded(reply), call)
        self.seen[call[0], expected] = self.seen.get((call[0], expected), 0) + 1
        return expected

    def hold(self, board, *calls):
        """Each of these calls on a board of its own with these words. The numbers."""
        return [self.step(cl.Lent(board), list(board), call) for call in calls]

    def assert_seen(self, least, *kinds):
        """Each of these calls and numbers came up more often than that, and no others of their calls did."""
        for kind in kinds:
            self.assertGreater(self.seen.get(kind, 0), least, (kind, self.seen))
        names = {name for name, _ in kinds}
        self.assertEqual({kind for kind in self.seen if kind[0] in names}, set(kinds))


class Items(Boards):
    """One item on any board in range."""

    def test_every_value(self):
        """A bed or a state that is taken and should not be, or the other way round; a value cut to fewer bits, or taken for a number below
        zero; a bed or a count not changed, changed twice, the wrong way or by another state's word: every value up to some thousands past
        the last bed's, on a new board, on written ones and on one that was not written."""
        rng = random.Random(81)
        others = [cb.random_board(rng, counts) for counts in (None, [1, 2, 510, 511])]
        for board in (cm.opened(), cb.written_board(rng, 2_000), cb.written_board(rng, 30), *others):
            self.hold(board, *(('take', value) for value in VALUES), *(('take', rng.randrange(2**32)) for _ in range(2_000)))
        self.assert_seen(100, ('take', 0), ('take', 19), ('take', 22))

    def test_every_bed_and_change(self):
        """A bed that is mistaken for another, or a change of state that is counted wrongly: every bed, from each state to each."""
        rng = random.Random(82)
        for k, (old, new) in enumerate(itertools.product(range(5), repeat=2)):
            table = cb.random_table(rng)
            board = cm.board_of([old] * 512, table)
            beds = range(512) if k % 6 == 0 else (0, 511, *rng.sample(range(512), 40))
            self.hold(board, *(('take', cm.value_of(bed, new)) for bed in beds))
        self.assertEqual(set(self.seen), {('take', 0)})

    def test_every_rule(self):
        """A rule of one office that stands for another's, or an office whose count is not kept up: each change of state, by each way to
        count the two states, for each office alone and for all."""
        for old, new in itertools.product(range(5), repeat=2):
            for words in itertools.product(range(2), repeat=4):
                before, after = dict(zip(range(4), words)), dict(zip(range(4), reversed(words)))
                table = {(office, state): 0 for office, state in cm.KEYS}
                table |= {(office, new): word for office, word in after.items()} | {(office, old): word for office, word in before.items()}
                states = [0] * 512
                states[77] = old
                for counts in (None, [200, 300, 400, 500]):
                    board = cm.board_of(states, table)
                    board[cm.COUNTS :] = counts or board[cm.COUNTS :]
                    self.assertEqual(self.hold(board, ('take', cm.value_of(77, new))), [0])

    def test_counts_at_their_ends(self):
        """A count that leaves 0 to 512, or 22 for one that stays there; 22 of one office alone that is not seen, or a word that was written
        before it was: each change by each two rules, at both ends and beside them, for each office alone."""
        for office, old, new in itertools.product(range(4), range(5), range(5)):
            for was, is_now in itertools.product(range(2), repeat=2):
                table = {key: 0 for key in cm.KEYS} | {(office, new): is_now, (office, old): was}
                for count in (0, 1, 511, 512):
                    counts = [count if one == office else 256 for one in range(4)]
                    states = [3] * 512
                    states[500] = old
                    self.hold([*states, *table.values(), *counts], ('take', cm.value_of(500, new)), ('take', cm.value_of(512, new)), ('take', 4_007))
        self.assert_seen(100, ('take', 0), ('take', 19), ('take', 22))

    def test_boards_of_any_words_in_range(self):
        """The same of boards that nobody would write: many counts at the ends at once."""
        rng = random.Random(83)
        for _ in range(1_500):
            board = cb.random_board(rng, rng.choice((None, [rng.choice((0, 512)) for _ in range(4)])))
            self.hold(board, ('take', cb.random_item(rng)), ('take', cb.other_value(rng)), ('take', rng.randrange(MOST_ITEM)))
        self.assert_seen(300, ('take', 0), ('take', 19), ('take', 22))

    def test_19_before_22_of_an_item(self):
        """An item's 22 that comes before its 19: every value of another bed or state, where every change of a bed would be too much."""
        for counts, states in (([512] * 4, [0, 1, 0, 0, 0]), ([0] * 4, [1, 0, 0, 0, 0])):
            board = [0] * 512 + states * 4 + counts
            values = [value for value in VALUES if value % 8 > 4 or value >= MOST_ITEM]
            self.assertEqual(set(self.hold(board, *(('take', value) for value in values))), {19})
            self.assertEqual(set(self.hold(board, *(('take', 8 * bed + 1) for bed in range(512)))), {22})


class Tables(Boards):
    """Tables read."""

    def test_any_table(self):
        """A row that is mistaken for another, rows that must come in order, a word left from the table before, counts that are not made
        afresh or from the old table: tables on boards of all kinds, those that were not written, too."""
        rng = random.Random(84)
        for k in range(600):
            board = cb.random_board(rng) if k % 2 else cb.written_board(rng, rng.randrange(60))
            self.hold(board, ('table', cb.shuffled_rows(rng, cb.random_table(rng))))
        self.assertEqual(set(self.seen), {('table', 0)})

    def test_each_rule_alone(self):
        """A word of the table that is another one's: tables of one counted state, and of all but one, in order and in reverse."""
        states = [bed % 5 if bed < 400 else bed % 3 for bed in range(512)]
        for key, word in itertools.product(cm.KEYS, range(2)):
            table = dict.fromkeys(cm.KEYS, 1 - word) | {key: word}
            for keys in (cm.KEYS, cm.KEYS[::-1]):
                self.assertEqual(self.hold([*states, *[0] * 24], ('table', cm.rows_of(table, keys))), [0])

    def test_all_beds_alike(self):
        """A count afresh that does not come to 512, or does not look at some bed: all beds in one state, and all but one."""
        for state, bed in itertools.product(range(5), (None, 0, 1, 255, 256, 510, 511)):
            states = [state if one != bed else (state + 1) % 5 for one in range(512)]
            for counted in range(5):
                table = {(office, one): int(one == counted) for office, one in cm.KEYS}
                self.hold([*states, *[1] * 20, *[9] * 4], ('table', cm.rows_of(table)))
        self.assertEqual(set(self.seen), {('table', 0)})

    def test_each_bed(self):
        """A bed that is not counted afresh."""
        table = {(office, state): int(state == office + 1) for office, state in cm.KEYS}
        for bed, state in itertools.product(range(512), (1, 4)):
            self.hold(cb.with_word(cm.opened(), bed, state), ('table', cm.rows_of(table)))

    def test_lengths(self):
        """A table of another length that is read: a table's beginning, and one with words or rows behind it."""
        rng = random.Random(85)
        board = cb.written_board(rng, 40)
        rows = cb.shuffled_rows(rng, cb.random_table(rng))
        for more in (rows * 80, rows + [0] * 5_000, [0] * 5_000):
            for length in (*range(131), 180, 536, 600, 4_096, 60 * 64, 65_536 // 16 + 60):
                number = 20 if length != 60 or not any(more) else 0
                self.assertEqual(self.hold(board, ('table', more[:length])), [number], length)

    def test_each_fault(self):
        """A fault of one row that is not seen, or one that is seen when some words have been written: each row missing, repeated, of an
        office or a state that there is not, or with a third word above 1; the rows in order and in any."""
        rng = random.Random(86)
        board = cb.written_board(rng, 300)
        for table in (dict.fromkeys(cm.KEYS, 0), dict.fromkeys(cm.KEYS, 1), cb.random_table(rng)):
            for rows in (cm.rows_of(table), cb.shuffled_rows(rng, table)):
                self.assertEqual(set(self.hold(board, *(('table', words) for words in cb.wrong_rows(rows)))), {20})

    def test_every_row_twice(self):
        """A row that is repeated at some distance and not seen: each row in the place of each other."""
        for k, twin in itertools.permutations(range(0, 60, 3), 2):
            self.assertEqual(self.hold(cm.opened(), ('table', [*ROWS[:k], *ROWS[twin : twin + 3], *ROWS[k + 3 :]])), [20])

    def test_rows_by_other_sums(self):
        """Rows told apart by a sum of their words: an office or a state too large that has the place of another row, as office 0 and state
        5 have that of office 1 and state 0, and words whose sum or product wraps."""
        for k, (office, state) in enumerate(cm.KEYS):
            for more, plus in ((-1, 5), (0, 5), (0, 8), (0, 2**31), (1, 2**32 - 5), (4, 0), (2**31, 0), (2**32 - 1, 5)):
                row = [(office + more) % 2**32, (state + plus) % 2**32, 1]
                if row[0] > 3 or row[1] > 4:
                    self.assertEqual(self.hold(cm.opened(), ('table', [*ROWS[: 3 * k], *row, *ROWS[3 * k + 3 :]])), [20])

    def test_random_words(self):
        """The same of any words, several faults at once."""
        rng = random.Random(87)
        for _ in range(1_000):
            board = cb.random_board(rng)
            few = [word for _ in range(20) for word in (rng.randrange(4), rng.randrange(5), rng.randrange(2))]
            self.hold(board, ('table', cb.no_table(rng)), ('table', few), ('table', [rng.randrange(2**32) for _ in range(60)]))
        self.assertEqual(set(self.seen), {('table', 20)})

    def test_more_words_than_a_word_counts(self):
        """A length that is cut to 32 bits: a table, and 4,294,967,296 words and more behind it."""
        try:
            memory = mmap.mmap(-1, 4 * (2**33 + 60), flags=mmap.MAP_PRIVATE | mmap.MAP_ANONYMOUS | MAP_NORESERVE)
        except OSError as error:
            self.skipTest(f'no room for so many words: {error}')
        rows = (ctypes.c_uint32 * 60).from_buffer(memory)
        rows[:] = ROWS
        for length, number in ((2**32 + 60, 20), (2**33 + 60, 20), (2**32, 20), (2**32 - 4, 20), (60, 0)):
            board = cl.Lent(cm.opened())
            self.assertEqual(self.library.census_table(board.words, ctypes.cast(rows, cl.Words), length), number, length)
            self.assertEqual(board.now(), cl.guarded([0] * 512 + [number == 0] * 20 + [512 * (number == 0)] * 4))


class Counts(Boards):
    """The census of an office."""

    def test_offices(self):
        """An office's count that is another's, or is made afresh though the board has another; an office above 3 that is not refused; other
        words of the reply, or of the board, written."""
        rng = random.Random(88)
        for k in range(300):
            board = cb.written_board(rng, rng.randrange(90)) if k % 3 == 0 else cb.random_board(rng)
            self.assertEqual(self.hold(board, *(('count', office) for office in (0, 1, 2, 3))), [0] * 4)
            self.assertEqual(set(self.hold(board, *(('count', office) for office in (4, 5, 7, 8, 256, 2**16, 2**31, 2**32 - 4, cb.MOST_WORD)))), {21})

    def test_every_count(self):
        """A count that is cut to fewer bits, or refused in range."""
        for count in range(513):
            self.assertEqual(self.hold([0] * 532 + [count] * 4, ('count', count % 4)), [0])


class Damaged(Boards):
    """Boards that are out of range, and boards at the ends of it."""

    def test_each_word(self):
        """A word of the board that is not looked at, is held to another range or is cut to fewer bits; 22 that comes after 19, 20 or 21: each
        word one above its range and more, for each call, also for one that would be refused by its own number."""
        rng = random.Random(89)
        for board in (cm.opened(), cb.written_board(rng, 700)):
            self.assertEqual(self.hold(board, *CALLS), NUMBERS)
            for k in range(536):
                for word in cb.out_of_range_words(k):
                    self.assertEqual(set(self.hold(cb.with_word(board, k, word), *CALLS)), {22}, (k, word))

    def test_items_of_a_damaged_bed(self):
        """A bed of which the old state is used before it is looked at: each state above 4, for its own bed's items."""
        for bed, state in itertools.product((0, 1, 256, 511), (5, 6, 7, 8, *cb.WIDE)):
            board = cb.with_word(cm.board_of([1] * 512, dict.fromkeys(cm.KEYS, 1)), bed, state)
            self.assertEqual(set(self.hold(board, *(('take', 8 * bed + new) for new in range(8)))), {22})

    def test_each_word_at_its_most(self):
        """A word that is refused in range: each at the most that it may be, and all at once."""
        for k, most in enumerate(cb.MOST):
            self.assertEqual(self.hold(cb.with_word([0] * 532 + [7] * 4, k, most), *CALLS), NUMBERS, k)
        self.assertEqual(self.hold(cb.MOST, *CALLS), NUMBERS)

    def test_several_words(self):
        """22 that several faults undo, as where they are counted or summed: two to all words out of range."""
        rng = random.Random(90)
        for _ in range(200):
            board = cb.random_board(rng)
            for k in rng.sample(range(536), rng.choice((2, 3, 16, 256, 536))):
                board[k] = rng.choice(cb.out_of_range_words(k))
            self.assertEqual(set(self.hold(board, *CALLS)), {22})

    def test_open(self):
        """A word that is left as it was, or a board that is refused."""
        rng = random.Random(91)
        for board in ([0] * 536, [cb.MOST_WORD] * 536, cb.random_board(rng), [rng.randrange(2**32) for _ in range(536)]):
            self.assertEqual(self.hold(board, ('open',)), [0])


class Lists(Boards):
    """Long lists of calls on one board that nothing else writes."""

    def play(self, rng, calls, beds):
        """So many calls for some beds: the board is what the accepted calls say, with counts afresh after each, and never refused."""
        board, written, lent = [5] * 536, cm.Written(), cl.Lent([5] * 536)
        self.step(lent, board, ('open',))
        for _ in range(calls):
            call = cb.random_call(rng, beds)
            self.assertEqual(self.step(lent, board, call), written.made(call), call)
            self.assertEqual(lent.now(), cl.guarded(written.board()), call)

    def test_ten_thousand_calls(self):
        """A count that drifts from a count made afresh, a word that stays behind, something that is kept outside the board."""
        rng = random.Random(92)
        for beds in (512, 7):
            self.play(rng, 10_000, beds)
        numbers = {'take': (0, 19), 'table': (0, 20), 'count': (0, 21)}
        self.assert_seen(200, *((name, number) for name, some in numbers.items() for number in some))

    def test_two_boards(self):
        """Something that is kept from one board for the other: calls on two in turn, one opened again and again."""
        rng = random.Random(93)
        boards = [(cl.Lent(cm.opened()), cm.opened()) for _ in range(2)]
        for k in range(4_000):
            self.step(*boards[rng.randrange(2)], cb.random_call(rng, 20))
            if k % 400 == 0:
                self.assertEqual(self.step(*boards[0], ('open',)), 0)


if __name__ == '__main__':
    unittest.main()
