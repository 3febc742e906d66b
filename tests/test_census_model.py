"""The model of the census: by hand, and what document 02, U13 says of a board that only this part has written, on long lists of calls."""

import itertools
import random
import unittest

import census_boards as cb
import census_model as cm
from census_model import AWAITING_CLEANING, BEING_CLEANED, CLOSED, FREE, OCCUPIED

MANAGER, PORTERS, WARD, NOBODY = range(cm.OFFICES)
# The site manager counts every bed that nobody can be put into but for closed ones, the porters those that they have to clean or are cleaning,
# the ward those with somebody in them, the last office none.
ROWS = [
    *(0, 0, 0, 0, 1, 1, 0, 2, 1, 0, 3, 1, 0, 4, 0),
    *(1, 0, 0, 1, 1, 0, 1, 2, 1, 1, 3, 1, 1, 4, 0),
    *(2, 0, 0, 2, 1, 1, 2, 2, 0, 2, 3, 0, 2, 4, 0),
    *(3, 0, 0, 3, 1, 0, 3, 2, 0, 3, 3, 0, 3, 4, 0),
]
# A dirty bed is the porters' alone, until they begin.
OTHER_ROWS = [
    *(3, 4, 1, 3, 0, 0, 3, 1, 0, 3, 2, 0, 3, 3, 0),
    *(1, 3, 0, 1, 2, 1, 1, 1, 0, 1, 0, 0, 1, 4, 0),
    *(0, 0, 1, 2, 0, 1, 0, 1, 0, 2, 1, 1, 0, 2, 0),
    *(2, 2, 1, 0, 3, 0, 2, 3, 1, 0, 4, 0, 2, 4, 1),
]


class ByHand(unittest.TestCase):
    """Calls whose numbers and counts are written by hand."""

    def assert_calls(self, *calls, board=None):
        """The numbers, and the counts after each call, are these; a refused call changes no word. The board afterwards."""
        board = cm.opened() if board is None else board
        for call, number, counts in calls:
            before, reply = list(board), [9, 9, 9, 9]
            self.assertEqual(cm.made(board, call, reply), number, call)
            self.assertEqual(board[532:], counts, call)
            if number:
                self.assertEqual((board, reply), (before, [9, 9, 9, 9]), call)
        return board

    def test_one_bed(self):
        """A bed counted by an office that does not count its state, not counted by one that does, counted twice, or still counted when it
        has left the state: one bed from free to free, by the site manager's rules and the porters'."""
        self.assert_calls(
            (('table', ROWS), 0, [0, 0, 0, 0]),
            (('take', 8 * 7 + OCCUPIED), 0, [1, 0, 1, 0]),
            (('take', 8 * 7 + OCCUPIED), 0, [1, 0, 1, 0]),
            (('take', 8 * 7 + AWAITING_CLEANING), 0, [1, 1, 0, 0]),
            (('take', 8 * 7 + BEING_CLEANED), 0, [1, 1, 0, 0]),
            (('take', 8 * 7 + FREE), 0, [0, 0, 0, 0]),
            (('take', 8 * 7 + CLOSED), 0, [0, 0, 0, 0]),
            (('take', 8 * 7 + AWAITING_CLEANING), 0, [1, 1, 0, 0]),
        )

    def test_some_beds(self):
        """A bed mistaken for another: the first, the last and one between."""
        board = self.assert_calls(
            (('table', ROWS), 0, [0, 0, 0, 0]),
            (('take', 1), 0, [1, 0, 1, 0]),
            (('take', 4_089), 0, [2, 0, 2, 0]),
            (('take', 2_050), 0, [3, 1, 2, 0]),
            (('take', 0), 0, [2, 1, 1, 0]),
            (('take', 4_092), 0, [1, 1, 0, 0]),
            (('take', 2_048), 0, [0, 0, 0, 0]),
        )
        self.assertEqual(board[:512], [0] * 511 + [4])

    def test_tables(self):
        """Items counted before the first table, counts not made afresh when a table is read, rows that must be in order, the old table's
        rules used after another was read."""
        board = self.assert_calls(
            (('take', 8 * 0 + OCCUPIED), 0, [0, 0, 0, 0]),
            (('take', 8 * 1 + AWAITING_CLEANING), 0, [0, 0, 0, 0]),
            (('take', 8 * 2 + BEING_CLEANED), 0, [0, 0, 0, 0]),
            (('take', 8 * 3 + CLOSED), 0, [0, 0, 0, 0]),
            (('table', ROWS), 0, [3, 2, 1, 0]),
            (('take', 8 * 4 + OCCUPIED), 0, [4, 2, 2, 0]),
            (('table', OTHER_ROWS), 0, [507, 1, 512, 1]),
            (('take', 8 * 2 + FREE), 0, [508, 1, 512, 1]),
            (('take', 8 * 1 + BEING_CLEANED), 0, [508, 0, 512, 1]),
            (('table', ROWS), 0, [3, 1, 2, 0]),
        )
        self.assertEqual(board[512:532], [0, 1, 1, 1, 0, 0, 0, 1, 1, 0, 0, 1, 0, 0, 0, 0, 0, 0, 0, 0])
        self.assertEqual(board[:512], [1, 3, 0, 4, 1] + [0] * 507)

    def test_census(self):
        """Another office's count, other words of the reply written, or an office that there is not."""
        board = self.assert_calls((('table', OTHER_ROWS), 0, [512, 0, 512, 0]), (('take', 4), 0, [511, 0, 512, 1]))
        for office, count in enumerate((511, 0, 512, 1)):
            reply = [9, 8, 7, 6]
            self.assertEqual((cm.census(board, office, reply), reply), (0, [count, 8, 7, 6]))
        for office in (4, 5, cb.MOST_WORD):
            reply = [9, 8, 7, 6]
            self.assertEqual((cm.census(board, office, reply), reply), (21, [9, 8, 7, 6]))

    def test_refusals(self):
        """Another bed or state taken, a table that is none read, or a refusal that changes something."""
        counts = [1, 0, 1, 0]
        no_tables = ([], ROWS[:57], ROWS[:59], [*ROWS, 0], [*ROWS, *ROWS[:3]], [*ROWS[:57], 3, 3, 0], [*ROWS[:57], *ROWS[:3]], [*ROWS[:57], 4, 4, 0],
                     [*ROWS[:57], 3, 5, 0], [*ROWS[:57], 3, 4, 2])
        self.assert_calls(
            (('table', ROWS), 0, [0, 0, 0, 0]),
            (('take', 1), 0, counts),
            *((('take', value), 19, counts) for value in (5, 6, 7, 8 * 511 + 5, 8 * 512, 8 * 512 + 1, 8 * 513 + 7, 2**31, 2**32 - 1)),
            *((('table', rows), 20, counts) for rows in no_tables),
            *((('count', office), 21, counts) for office in (4, 2**32 - 1)),
        )

    def test_order_of_the_refusals(self):
        """22 of a board after 19, 20 or 21; 22 of an item before 19."""
        table = [0, 1, 0, 0, 0] + [0] * 15
        for k, most in ((0, 4), (511, 4), (512, 1), (531, 1), (532, 512), (535, 512)):
            board = [0] * 512 + table + [5] * 4
            board[k] = most
            self.assert_calls((('take', 5), 19, board[532:]), (('table', []), 20, board[532:]), (('count', 4), 21, board[532:]), board=board)
            board[k] = most + 1
            for call in (('take', 0), ('take', 5), ('table', ROWS), ('table', []), ('count', 0), ('count', 4)):
                self.assert_calls((call, 22, board[532:]), board=board)
        full = [0] * 512 + table + [512, 0, 0, 0]
        self.assert_calls((('take', 1), 22, [512, 0, 0, 0]), (('take', 5), 19, [512, 0, 0, 0]), (('take', 4_097), 19, [512, 0, 0, 0]), board=full)

    def test_counts_at_their_ends(self):
        """A count below 0 or above 512, or 22 for one that stays: boards that this part did not write, for each office alone."""
        for office in range(4):
            table = [0] * 20
            table[5 * office + 1] = table[5 * office + 2] = 1
            for old, new, count, after in (
                *((0, 1, 511, 512), (0, 1, 512, None), (0, 1, 0, 1), (2, 1, 512, 512), (1, 1, 512, 512), (4, 0, 512, 512), (3, 3, 512, 512)),
                *((1, 0, 1, 0), (1, 0, 0, None), (1, 4, 512, 511), (2, 1, 0, 0), (1, 1, 0, 0), (4, 0, 0, 0), (3, 3, 0, 0)),
            ):
                counts = [7] * 4
                counts[office] = count
                board = [0] * 100 + [old] + [0] * 411 + table + counts
                if after is None:
                    self.assert_calls((('take', 800 + new), 22, counts), board=board)
                else:
                    counts = counts[:office] + [after] + counts[office + 1 :]
                    self.assertEqual(self.assert_calls((('take', 800 + new), 0, counts), board=board)[100], new)

    def test_open(self):
        """A word that is left as it was."""
        board = [cb.MOST_WORD] * 536
        self.assertEqual((cm.open_board(board), board), (0, [0] * 536))


class Lists(unittest.TestCase):
    """Long lists of calls on a board that nothing else writes."""

    def statement(self, board, accepted):
        """The three clauses, read off the calls that were accepted: each bed's word is the state of its last item, 0 without one; the
        table's words are those of the table last read, 0 without one; each count is the number of beds whose state its office counts."""
        items = dict(divmod(given, 8) for name, given in accepted if name == 'take')
        self.assertEqual(board[:512], [items.get(bed, 0) for bed in range(512)])
        rows = next((given for name, given in reversed(accepted) if name == 'table'), [])
        counted = {(rows[k], rows[k + 1]) for k in range(0, len(rows), 3) if rows[k + 2] == 1}
        for office, state in itertools.product(range(4), range(5)):
            self.assertEqual(board[512 + 5 * office + state], int((office, state) in counted))
        for office in range(4):
            self.assertEqual(board[532 + office], len([bed for bed in range(512) if (office, board[bed]) in counted]))

    def play(self, rng, calls, beds, every):
        """So many calls for some beds, with counts afresh after each and the statement every so many calls. How often each number came."""
        board, written, accepted, seen = cm.opened(), cm.Written(), [], {}
        self.statement(board, accepted)
        for k in range(calls):
            call, before = cb.random_call(rng, beds), list(board)
            number = cm.made(board, call, [0] * 4)
            seen[number] = seen.get(number, 0) + 1
            self.assertEqual(number, written.made(call), call)
            self.assertEqual(board, written.board() if number == 0 else before, call)
            if number == 0 and call[0] != 'count':
                accepted.append(call)
            if k % every == 0:
                self.statement(board, accepted)
        self.statement(board, accepted)
        return seen

    def test_ten_thousand_calls(self):
        """A count that is not kept up, a refusal that changes a word, 22 on a board that only the calls have written."""
        rng = random.Random(71)
        for beds in (512, 9):
            seen = self.play(rng, 10_000, beds, 50)
            self.assertEqual(set(seen), {0, 19, 20, 21})
            self.assertGreater(min(seen.values()), 50, seen)

    def test_many_short_lists(self):
        """The same, with the statement after each call: lists of few calls, for few beds."""
        rng = random.Random(72)
        for _ in range(300):
            self.play(rng, rng.randrange(30), rng.choice((1, 2, 512)), 1)

    def test_full_and_empty(self):
        """22 where every bed is counted, or none: all beds go through the states in turn, by tables that count each state alone."""
        for state in range(5):
            board, written = cm.opened(), cm.Written()
            table = {key: int(key[1] == state) for key in cm.KEYS}
            rounds = [('take', cm.value_of(bed, to)) for to in (state, state, 4 - state, state) for bed in range(512)]
            for call in [('table', cm.rows_of(table)), *rounds]:
                self.assertEqual((cm.made(board, call, []), written.made(call)), (0, 0))
            self.assertEqual(board, written.board())
            self.assertEqual(board[532:], [512] * 4)


class Tables(unittest.TestCase):
    """Words that are a table, and words that are none."""

    def test_any_order(self):
        """Rows that must come in some order, or a row mistaken for another."""
        rng = random.Random(73)
        for _ in range(300):
            table = cb.random_table(rng)
            rows = cb.shuffled_rows(rng, table)
            self.assertEqual(cm.table_of(rows), table)
            for k in range(0, 60, 3):
                self.assertEqual(table[rows[k], rows[k + 1]], rows[k + 2])

    def test_no_tables(self):
        """A fault of one row that is passed over."""
        rng = random.Random(74)
        rows = cb.shuffled_rows(rng, cb.random_table(rng))
        some = list(cb.wrong_rows(rows))
        self.assertGreater(len(some), 400)
        for words in some:
            self.assertIsNone(cm.table_of(words))
        for length in range(200):
            self.assertEqual(cm.table_of((rows * 4)[:length]) is None, length != 60)
            self.assertIsNone(cm.table_of(cb.no_table(rng)))


if __name__ == '__main__':
    unittest.main()
