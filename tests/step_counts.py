"""The number of accepted steps of a call (document 02, U3): what an accepted call must make of it, and numbers for stores
that no engine wrote."""

import intake_model as im
from intake_model import MOST_STEPS, thread_of

EDGES = (0, 1, MOST_STEPS - 1, MOST_STEPS, MOST_STEPS + 1)


def steps_of(words):
    """Word 7 of each thread, the consumer's first."""
    return words[im.CONTENTS + im.STEPS : words[5] : im.THREAD_WORDS]


def with_steps(words, t, steps):
    """The words with another number of steps of thread t."""
    k = im.CONTENTS + im.THREAD_WORDS * t + im.STEPS
    return words[:k] + [steps] + words[k + 1 :]


def drawn(rng):
    """A number in range: small, the last but one, or, in one case of ten, the last, with which no step is accepted."""
    if rng.random() < 0.1:
        return MOST_STEPS
    return rng.choice((0, 1, rng.randint(0, 99), MOST_STEPS - 1))


def miscounted(call, reply, words, after):
    """What an accepted call does wrong: a step adds one and replies it, and so does a start of an enqueue; another start
    leaves 0, and a call that ends leaves 0. The numbers of other threads stay."""
    t, expected = thread_of(call), steps_of(words)
    if call[0] in ('e', 's'):
        expected[t] += 1
        if reply[-1] != expected[t]:
            return ['steps: the reply']
        if reply[0] not in ('ok', 'going'):
            expected[t] = 0
    return [] if steps_of(after) == expected else ['steps: the words']


class Tally:
    """The accepted steps of each call under way, counted in the list of calls. The start of an enqueue is its first."""

    def __init__(self):
        self.under_way = {}

    def add(self, call, reply):
        """Count an accepted call. What is wrong with its reply."""
        t = thread_of(call)
        if call[0] != 's':
            self.under_way[t] = 0
        if call[0] not in ('e', 's'):
            return []
        self.under_way[t] += 1
        steps = self.under_way[t] if reply[0] in ('ok', 'going') else self.under_way.pop(t)
        return [] if reply[-1] == steps else ['steps: the reply']

    def wrong(self, words):
        """What is wrong with the words after the calls counted."""
        expected = [self.under_way.get(t, 0) for t in range(words[2] + 1)]
        return [] if steps_of(words) == expected else ['steps: the words']
