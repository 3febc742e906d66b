"""Cases for the definitions of the census, for definition_cases.py: `open_board`, `taking`, `reading_table` and `counting` of
crates/census_rules/specs/Census.antt, `is_table` and `rules_in` of Table.antt, `in_range` of Board.antt, and what Statement.antt owes after a list of
calls. What they must give comes from `census_model` alone."""

import itertools
import random
from typing import NamedTuple

import census_boards as cb
import census_model as cm
from table_terms import another, changed_at, listed, record_term

TYPES = {'calls': 'Calls', 'rows': 'List ℕ', 'range': 'List ℕ', 'owed': 'List Call'}
ANSWERS = {'calls': 'After', 'rows': 'Rules', 'range': 'Bool', 'owed': 'Owed'}
FUNCTIONS = {'calls': 'make', 'rows': 'rules', 'range': 'admitted', 'owed': 'owe'}
# calls at an end of what is accepted, or beside one
FEW = [('count', office) for office in (*range(6), cb.MOST_WORD)]
FEW += [('take', value) for value in (*range(8), *range(4_088, 4_102), 2**31, cb.MOST_WORD)]
# words of a board at an end of a part of it, or beside one
EDGES = (0, 1, 255, 256, 510, 511, 512, 513, 516, 517, 530, 531, 532, 533, 534, 535)


def words_term(words):
    """A list of words; a long row of the same one is `replicate`."""
    rows = [(word, len(list(same))) for word, same in itertools.groupby(words)]
    return ' '.join(f'replicate {length} {word} ++' if length >= 8 else ' '.join([f'{word} ∷'] * length) for word, length in rows) + ' []'


def call_term(call):
    """A call; a census is lent the words that the one before left."""
    name, *given = call
    return {'open': 'Open', 'take': 'Take {}', 'table': 'ReadTable ({})', 'count': 'Count {}'}[name].format(
        *(words_term(one) if isinstance(one, list) else one for one in given)
    )


class Calls(NamedTuple):
    """A board, the words of a reply, and some calls with them."""

    board: list
    reply: list
    calls: list
    expected: tuple  # the numbers; the words of the board and of the reply afterwards

    def terms(self):
        """What is given and what is expected, as terms."""
        numbers, board, reply = self.expected
        given = record_term(board=words_term(self.board), reply=words_term(self.reply), calls=listed(map(call_term, self.calls)))
        return given, record_term(numbers=words_term(numbers), board=words_term(board), reply=words_term(reply))

    def wrong(self, rng):
        """The same with one expected value changed."""
        part = rng.randrange(3)
        words = self.expected[part]
        return self._replace(expected=tuple(changed_at(self.expected, part, lambda _: changed_at(words, rng.randrange(len(words)), another))))


class Rows(NamedTuple):
    """Words that may be a table."""

    words: list
    expected: list  # of each office its words for the states; nothing if they are no table

    def terms(self):
        return words_term(self.words), rules_term(self.expected)

    def wrong(self, rng):
        if not self.expected:
            return self._replace(expected=[[0] * cm.STATES] * cm.OFFICES)
        office, state = rng.choice(cm.KEYS)
        return self._replace(expected=changed_at(self.expected, office, lambda row: changed_at(row, state, lambda word: 1 - word)))


class Range(NamedTuple):
    """The words of a board."""

    words: list
    expected: bool  # whether each is in its range

    def terms(self):
        return words_term(self.words), 'true' if self.expected else 'false'

    def wrong(self, rng):
        return self._replace(expected=not self.expected)


class Owed(NamedTuple):
    """Calls after an open."""

    calls: list
    expected: list  # the board afterwards

    def terms(self):
        """The board; what is owed of its parts, in reverse for the beds: the states, the table, the counts."""
        board = self.expected
        calls = [statement_term(call) for call in self.calls]
        states, table, counts = board[: cm.TABLE], board[cm.TABLE : cm.COUNTS], board[cm.COUNTS :]
        rows = [table[first : first + cm.STATES] for first in range(0, len(table), cm.STATES)]
        return listed(calls), record_term(board=words_term(board), states=words_term(states[::-1]), table=rules_term(rows), counts=words_term(counts))

    def wrong(self, rng):
        k = rng.choice((rng.randrange(cm.BEDS), rng.randrange(cm.TABLE, cm.COUNTS), rng.randrange(cm.COUNTS, cm.WORDS)))
        return self._replace(expected=changed_at(self.expected, k, another))


KINDS = (Calls, Rows, Range, Owed)


def rules_term(rows):
    return listed(f'({words_term(row)})' for row in rows)


def statement_term(call):
    """A call as Statement.antt writes it; a census is lent one word."""
    name, given = call
    return {'take': 'take {}', 'table': 'read_table ({})', 'count': 'count {} (7 ∷ [])'}[name].format(words_term(given) if name == 'table' else given)


def plain_board(rng, counts=None):
    """A board in range of a few long rows of beds in one state, and single beds among them; its counts afresh, or these."""
    ends = sorted(rng.sample(range(1, cm.BEDS), rng.randrange(4)))
    states = [state for first, last in itertools.pairwise([0, *ends, cm.BEDS]) for state in [rng.randrange(cm.STATES)] * (last - first)]
    for bed in rng.sample(range(cm.BEDS), rng.randrange(4)):
        states[bed] = rng.randrange(cm.STATES)
    board = cm.board_of(states, cb.random_table(rng))
    return board if counts is None else [*board[: cm.COUNTS], *counts]


def made(rng, board, *calls):
    """The case of some calls on a board, with the model's answers."""
    board, reply = list(board), [rng.randrange(9) for _ in range(rng.choice((4, 4, 1, 6)))]
    given = (list(board), list(reply), list(calls))
    return Calls(*given, ([cm.made(board, call, reply) for call in calls], board, reply))


def item_at_the_ends(rng, ends):
    """An item of a board on which some offices have this count, and these words for the bed's old state and its new one, if it is another."""
    board = plain_board(rng, [rng.randrange(1, cm.BEDS) for _ in range(cm.OFFICES)])
    bed, change = rng.choice((0, 511, rng.randrange(cm.BEDS))), rng.randrange(1, cm.STATES)
    old, new = board[bed], (board[bed] + change) % cm.STATES
    for office, (count, words) in ends.items():
        board[cm.COUNTS + office] = count
        for state, word in zip((old, new), words):
            board[cm.TABLE + cm.STATES * office + state] = word
    return made(rng, board, ('take', cm.value_of(bed, rng.choice((old, new, new, new)) if words[0] == words[1] else new)))


def damaged_board(rng):
    board = plain_board(rng)
    k = rng.choice((*EDGES, rng.randrange(cm.WORDS)))
    board[k] = rng.choice(cb.out_of_range_words(k))
    return board


def calls(seed, count):
    """So many cases: items at the ends of one office's count and of each one's, calls with arguments at their ends, calls of all kinds, calls
    on damaged boards, and lists of calls after an open."""
    rng = random.Random(seed)
    ends = list(itertools.product((0, 1, 511, 512), itertools.product(range(2), repeat=2)))
    cases = [item_at_the_ends(rng, {office: end}) for office in range(cm.OFFICES) for end in ends]
    cases += [made(rng, plain_board(rng), call) for call in FEW]
    while len(cases) < count:
        kind = len(cases) % 8
        if kind < 2:
            cases.append(item_at_the_ends(rng, {office: rng.choice(ends) for office in range(cm.OFFICES)}))
        elif kind == 2:
            cases.append(made(rng, plain_board(rng, rng.choice(([0] * 4, [512] * 4))), cb.random_call(rng, weights=(2, 1, 0, 0, 0))))
        elif kind < 5:
            cases.append(made(rng, plain_board(rng), cb.random_call(rng, weights=(1, 1, 4, 2, 4))))
        elif kind < 7:
            cases.append(made(rng, damaged_board(rng), cb.random_call(rng, weights=(1, 1, 1, 1, 2))))
        else:
            some = [cb.random_call(rng, 3) for _ in range(5)]
            cases.append(made(rng, damaged_board(rng), ('open',), *some[:2], ('table', cb.shuffled_rows(rng, cb.random_table(rng))), *some[2:]))
    return cases


def rows(seed, count):
    """So many words: each row in the place of the one of the next state or office; tables, their rows in any order; words with one fault; of
    other lengths."""
    rng = random.Random(seed)
    words = [[], [0] * 60, [0] * 61]
    for office, state in cm.KEYS:
        for twin in ((office, (state + 1) % cm.STATES), ((office + 1) % cm.OFFICES, state)):
            words.append(cm.rows_of(cb.random_table(rng), [twin if key == (office, state) else key for key in cm.KEYS]))
    while len(words) < count:
        table = cb.shuffled_rows(rng, cb.random_table(rng))
        words += [table, rng.choice(list(cb.wrong_rows(table))), cb.no_table(rng)]
    return [Rows(some, rules_of(some)) for some in words[:count]]


def rules_of(words):
    table = cm.table_of(words)
    return [] if table is None else [[table[office, state] for state in range(cm.STATES)] for office in range(cm.OFFICES)]


def ranges(seed, count):
    """So many boards: in range, each word of them at its most, and with one word out of range, at the edges and anywhere."""
    rng = random.Random(seed)
    boards = [cb.MOST, *(cb.with_word(cm.opened(), k, word) for k in EDGES for word in (cb.MOST[k], cb.MOST[k] + 1))]
    while len(boards) < count:
        boards.append(rng.choice((plain_board, damaged_board, damaged_board))(rng))
    return [Range(board, not cm.out_of_range(board)) for board in boards]


def owed(seed, count):
    """So many lists of up to eight calls for few beds."""
    rng, cases = random.Random(seed), []
    while len(cases) < count:
        some = [cb.random_call(rng, rng.choice((3, cm.BEDS)), (5, 1, 2, 1, 2)) for _ in range(len(cases) % 9)]
        written = cm.Written()
        for call in some:
            written.made(call)
        cases.append(Owed(some, written.board()))
    return cases


HEAD = """-- Generated: calls on a bed board, words that may be a table, boards, and what the model says of them.
use Rattle.std.specs.Prelude.{◌≡◌, refl, Bool, true, false, List, [], ◌∷◌, ◌++◌, ℕ, replicate}
use Rattle.census_rules.specs.Board.{Rules}
use Rattle.census_rules.specs.Statement.{Call, take, read_table, count}
use Rattle.tables.specs.Census.{Open, Take, ReadTable, Count, Calls, After, make, rules, admitted, Owed, owe}
"""

# The definitions, put together as the tables need them.
CENSUS = """-- Calls on a bed board as the definitions answer them.
use Rattle.std.specs.Prelude.{Bool, cond, List, [], ◌∷◌, reverse, ℕ, zero, suc}
use Rattle.census_rules.specs.Board.{beds, Rules, in_range}
use Rattle.census_rules.specs.Table.{are_rows, times_in, is_table, word_in, rules_in}
use Rattle.census_rules.specs.Census.{Outcome, open_board, moved, taking, ruled, reading_table, counting}
use Rattle.census_rules.specs.Statement.{Call, board_after, state_after, rules_after, no_rules, how_many, census_of}

pub data Made : Type 0 where
  Open : Made
  Take : ℕ → Made
  ReadTable : List ℕ → Made
  Count : ℕ → Made

-- a board, the words of a reply, and some calls with them
pub record Calls : Type 0 where
  pub board : List ℕ
  pub reply : List ℕ
  pub calls : List Made

-- the numbers, and the words of the board and of the reply afterwards
pub record After : Type 0 where
  pub numbers : List ℕ
  pub board : List ℕ
  pub reply : List ℕ

-- the newest number first
abbrev on_board : Outcome → After → After
on_board o a = record { numbers = o.number ∷ a.numbers; board = o.words; reply = a.reply }

abbrev in_reply : Outcome → After → After
in_reply o a = record { numbers = o.number ∷ a.numbers; board = a.board; reply = o.words }

abbrev after : Made → After → After
after Open a = record { numbers = 0 ∷ a.numbers; board = open_board; reply = a.reply }
after (Take v) a = on_board (taking v a.board) a
after (ReadTable ws) a = on_board (reading_table ws a.board) a
after (Count office) a = in_reply (counting office a.board a.reply) a

abbrev made : List Made → After → After
made [] a = a
made (c ∷ cs) a = made cs (after c a)

abbrev in_order : After → After
in_order a = record { numbers = reverse a.numbers; board = a.board; reply = a.reply }

unfoldable pub make : Calls → After
unfolding in_range are_rows times_in is_table word_in moved taking ruled reading_table counting
make c = in_order (made c.calls (record { numbers = []; board = c.board; reply = c.reply }))

-- the rule table of words; none if they are no table
unfoldable pub rules : List ℕ → Rules
unfolding are_rows times_in is_table word_in
rules ws = cond (is_table ws) (rules_in ws) []

unfoldable pub admitted : List ℕ → Bool
unfolding in_range
admitted b = in_range b

-- the board after calls that follow an open; the states of the beds, the last one first, the table and the counts as they are owed
pub record Owed : Type 0 where
  pub board : List ℕ
  pub states : List ℕ
  pub table : Rules
  pub counts : List ℕ

abbrev states : ℕ → List Call → List ℕ
states zero cs = []
states (suc n) cs = state_after cs 0 n ∷ states n cs

unfoldable pub owe : List Call → Owed
unfolding in_range are_rows times_in is_table word_in moved taking ruled reading_table counting how_many
owe cs =
    let table = rules_after cs no_rules in
    let census = census_of table (state_after cs 0) in
    let counts = census 0 ∷ census 1 ∷ census 2 ∷ census 3 ∷ [] in
    record { board = board_after cs open_board; states = states beds cs; table = table; counts = counts }
"""
