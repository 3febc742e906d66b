"""The proved comparison of two recordings as a shared library, for tests and benchmarks in bulk."""

import ctypes

from archives import archive, shared
from judge_library import REPLY, Words, array

AFTER = (0xAF7E4, 0xAF7E5)  # what stands behind the four words of the reply


def load():
    library = shared([archive('comparison')], 'comparison')
    both = [Words, ctypes.c_size_t] * 2
    library.recordings_compare.argtypes = [*both, Words]
    library.recordings_keep_precedence.argtypes = both
    library.recordings_compare.restype = library.recordings_keep_precedence.restype = ctypes.c_uint32
    return library


def compare_lent(library, first, second):
    """The number that is returned for two arrays, and the words of the reply and behind it."""
    reply = array(REPLY + AFTER)
    return library.recordings_compare(first, len(first), second, len(second), reply), tuple(reply)


def keeps_lent(library, first, second):
    """The number that is returned for the precedence of two arrays."""
    return library.recordings_keep_precedence(first, len(first), second, len(second))
