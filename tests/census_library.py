"""The proved census as a shared library, for tests and benchmarks in bulk."""

import array
import ctypes

from archives import archive, shared
from judge_library import REPLY, Words

GUARD = (0xAF7E4, 0xAF7E5)  # what stands before and behind the words that are lent


def load():
    library = shared([archive('census')], 'census')
    word = ctypes.c_uint32
    library.census_open.argtypes = [Words]
    library.census_take.argtypes = [Words, word]
    library.census_table.argtypes = [Words, Words, ctypes.c_size_t]
    library.census_count.argtypes = [Words, word, Words]
    for call in (library.census_open, library.census_take, library.census_table, library.census_count):
        call.restype = word
    return library


class Lent:
    """Words that are lent, with guards."""

    def __init__(self, words):
        self.length = len(words)
        self.all = (ctypes.c_uint32 * (2 * len(GUARD) + self.length)).from_buffer_copy(array.array('I', guarded(words)))
        self.words = ctypes.cast(ctypes.byref(self.all, 4 * len(GUARD)), Words)

    def now(self):
        """The words as they are, with the guards."""
        return self.all[:]


def guarded(words):
    """Lent words as they must be, with the guards."""
    return [*GUARD, *words, *GUARD]


def made(library, board, call, reply):
    """The number that is returned for a call on a lent board; its rows are lent, too, and must stay."""
    name, *given = call
    if name == 'open':
        return library.census_open(board.words)
    if name == 'take':
        return library.census_take(board.words, given[0])
    if name == 'count':
        return library.census_count(board.words, given[0], reply.words)
    rows = Lent(given[0])
    number = library.census_table(board.words, rows.words, rows.length)
    if rows.now() != guarded(given[0]):
        raise AssertionError(f'census_table wrote the rows that it was lent to read: {rows.now()}')
    return number
