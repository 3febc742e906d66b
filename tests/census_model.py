"""The census of a bed board: an independent model, written by hand from document 02, U13.

A board is a list of 536 words: the state of each of 512 beds; for each of four offices, in their order, 1 or 0 for each of five states, as it
is counted or not; the four offices' counts. Each call gives 0 or the number of a refusal, and a refused one changes no word.
"""

BEDS, STATES, OFFICES = 512, 5, 4
FREE, OCCUPIED, AWAITING_CLEANING, BEING_CLEANED, CLOSED = range(STATES)
KEYS = [(office, state) for office in range(OFFICES) for state in range(STATES)]
TABLE = BEDS  # the table's first word
COUNTS = TABLE + len(KEYS)  # the first count
WORDS = COUNTS + OFFICES
ROWS_WORDS = 3 * len(KEYS)


def opened():
    """All beds free, no state counted."""
    return [0] * WORDS


def value_of(bed, state):
    return bed * 8 + state


def table_on(board):
    """The table's words under (office, state)."""
    return dict(zip(KEYS, board[TABLE:COUNTS]))


def count_afresh(states, table, office):
    """The number of beds whose state an office counts: of the beds in each such state."""
    return sum(states.count(state) for state in range(STATES) if table[office, state] == 1)


def board_of(states, table):
    """The board with these states and this table, the counts made afresh."""
    return [*states, *(table[key] for key in KEYS), *(count_afresh(states, table, office) for office in range(OFFICES))]


def out_of_range(board):
    """A state above 4, a table word above 1 or a count above 512."""
    return max(board[:TABLE]) > STATES - 1 or max(board[TABLE:COUNTS]) > 1 or max(board[COUNTS:]) > BEDS


def table_of(rows):
    """The table of a hospital's words, from (office, state) to 1 or 0; None if they are none."""
    if len(rows) != ROWS_WORDS:
        return None
    table = {}
    for office, state, word in zip(rows[0::3], rows[1::3], rows[2::3]):
        if office >= OFFICES or state >= STATES or word > 1 or (office, state) in table:
            return None
        table[office, state] = word
    return table if set(table) == set(KEYS) else None


def rows_of(table, keys=tuple(KEYS)):
    """The words of a table, its rows in some order."""
    return [word for office, state in keys for word in (office, state, table[office, state])]


def open_board(board):
    board[:] = opened()
    return 0


def take(board, value):
    """One item: its bed is in its state, and each office that counts that one and did not count the old one counts a bed more, each that
    counted the old one and does not count the new one a bed less."""
    if out_of_range(board):
        return 22
    bed, state = divmod(value, 8)
    if bed >= BEDS or state >= STATES:
        return 19
    table, counts = table_on(board), board[COUNTS:]
    for office in range(OFFICES):
        before, after = table[office, board[bed]] == 1, table[office, state] == 1
        if after and not before:
            counts[office] += 1
        elif before and not after:
            counts[office] -= 1
    if min(counts) < 0 or max(counts) > BEDS:
        return 22
    board[bed] = state
    board[COUNTS:] = counts
    return 0


def read_table(board, rows):
    """The table goes onto the board, and the counts are made afresh."""
    if out_of_range(board):
        return 22
    table = table_of(rows)
    if table is None:
        return 20
    board[:] = board_of(board[:BEDS], table)
    return 0


def census(board, office, reply):
    """The office's count goes to word 0 of the reply."""
    if out_of_range(board):
        return 22
    if office >= OFFICES:
        return 21
    reply[0] = board[COUNTS + office]
    return 0


def made(board, call, reply):
    """The number of a call: ('open',), ('take', value), ('table', rows) or ('count', office), the last with words to reply in."""
    name, *given = call
    if name == 'count':
        return census(board, *given, reply)
    return {'open': open_board, 'take': take, 'table': read_table}[name](board, *given)


class Written:
    """A board that only these calls have written, as the accepted ones alone say that it must be: the last state of each bed and the table
    last read are kept, and the counts are always made afresh."""

    def __init__(self):
        self.last = {}
        self.table = dict.fromkeys(KEYS, 0)

    def made(self, call):
        """The number of a call."""
        name, *given = call
        if name == 'open':
            self.__init__()
        elif name == 'take':
            bed, state = divmod(given[0], 8)
            if bed not in range(BEDS) or state not in range(STATES):
                return 19
            self.last[bed] = state
        elif name == 'table':
            table = table_of(given[0])
            if table is None:
                return 20
            self.table = table
        elif given[0] not in range(OFFICES):
            return 21
        return 0

    def board(self):
        """Each bed in its last state, free without one."""
        return board_of([self.last.get(bed, FREE) for bed in range(BEDS)], self.table)
