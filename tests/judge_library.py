"""The proved judge and the check of an order as a shared library, for tests and benchmarks in bulk."""

import ctypes
from typing import NamedTuple

from archives import archive, program, shared

PROGRAM = program('verdict')
WORDS = {0: 'explained', 1: 'unexplained'}
ANSWERS = {0: 'yes', 1: 'no'}
REPLY = (0xBEEF, 0xBEE, 0xBE, 0xB)  # what stands where the judge replies how many words the order has
Words = ctypes.POINTER(ctypes.c_uint32)


class Call(ctypes.Structure):
    """An entry of the working table."""

    _fields_ = [(name, ctypes.c_uint32) for name in ('kind', 'start', 'end', 'answer')]

    def row(self):
        return (self.kind, self.start, self.end, self.answer)


class Judged(NamedTuple):
    """The reply in the model's form; the table's rows, the words of the order and those of the reply afterwards."""

    word: str | tuple
    rows: list
    order: list
    reply: tuple

    def numbers(self):
        """The order that was written."""
        return self.order[: self.reply[0]]


def load():
    library = shared([archive('judge_c')], 'judge')
    size = ctypes.c_size_t
    library.judge_history.argtypes = [Words, size, ctypes.POINTER(Call), size, Words, size, Words]
    library.order_check.argtypes = [Words, size, Words, size]
    library.judge_history.restype = library.order_check.restype = ctypes.c_uint32
    return library


def array(words):
    return (ctypes.c_uint32 * len(words))(*words)


def judge(library, words, table, entries, order, order_words):
    """What the judge replies and leaves; the first entries of the table and the first words of the order are lent."""
    rows, numbers, reply = (Call * len(table))(*table), array(order), array(REPLY)
    word = library.judge_history(array(words), len(words), rows, entries, numbers, order_words, reply)
    return Judged(WORDS.get(word, ('refused', word)), [call.row() for call in rows], list(numbers), tuple(reply))


def judge_with_room(library, words):
    """The same with a table and a buffer of as many entries and words as there are events."""
    events = len(words) // 4
    return judge(library, words, [(0, 0, 0, 0)] * events, events, [0] * events, events)


def check(library, words, numbers):
    """What the check replies, in the model's form."""
    answer = library.order_check(array(words), len(words), array(numbers), len(numbers))
    return ANSWERS.get(answer, ('refused', answer))
