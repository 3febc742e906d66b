"""The engine's C interface for Python: the static library as a shared object, called through ctypes."""

import ctypes

from archives import archive, shared

OK, GOING, END, EMPTY, ITEM, DRAINED = 0, 100, 101, 102, 103, 104


def load():
    """The engine as a ctypes library."""
    library = shared([archive('engine')], 'engine')
    word, words, size = ctypes.c_uint32, ctypes.POINTER(ctypes.c_uint32), ctypes.c_size_t
    arguments = {
        'intake_open': [words, size, word, word, word, word],
        'intake_start_enqueue': [words, size, word, word, words],
        'intake_start_dequeue': [words, size],
        'intake_start_drain': [words, size, word],
        'intake_step': [words, size, word, words, size, word, words],
    }
    for name, types in arguments.items():
        function = getattr(library, name)
        function.argtypes, function.restype = types, word
    return library


class Engine:
    """Calls on a store that is lent as an array of words, with a reply buffer of four words. A step is lent another array;
    `buffer` has its words after the call."""

    MARK = (0xA5A5A5A5, 0x5A5A5A5A, 0xDEADBEEF, 0x01234567)

    def __init__(self, library, words):
        self.library = library
        self.store = (ctypes.c_uint32 * len(words))(*words)
        self.reply = (ctypes.c_uint32 * 4)()
        self.buffer = []

    def words(self):
        return list(self.store)

    def open(self, sizes):
        return self.library.intake_open(self.store, len(self.store), *sizes)

    def call(self, call):
        """The number that a start or step returns; the reply buffer is marked before."""
        self.reply[:] = self.MARK
        n = len(self.store)
        if call[0] == 'e':
            return self.library.intake_start_enqueue(self.store, n, call[1], call[2], self.reply)
        if call[0] == 'd':
            return self.library.intake_start_dequeue(self.store, n)
        if call[0] == 'drain':
            return self.library.intake_start_drain(self.store, n, call[1])
        words, named = call[2:] or ((), 0)
        lent = (ctypes.c_uint32 * len(words))(*words)
        number = self.library.intake_step(self.store, n, call[1], lent, len(words), named, self.reply)
        self.buffer = list(lent)
        return number


def expected(reply):
    """What the interface returns for a reply of the model, and the reply buffer then: the number of steps is its third
    word, of a start enqueue too; a refusal, an open and other starts leave all four. Of a drain the first is the number of
    items and the second zero."""
    mark = list(Engine.MARK)
    kind, *numbers = reply
    if kind == 'refused':
        return numbers[0], mark
    if reply == ('ok',):
        return OK, mark
    *item, steps = numbers
    if kind == 'drained':
        item.append(0)
    number = {'ok': OK, 'going': GOING, 'end': END, 'empty': EMPTY, 'item': ITEM, 'drained': DRAINED}[kind]
    return number, [*item, *mark[len(item) : 2], steps, mark[3]]
