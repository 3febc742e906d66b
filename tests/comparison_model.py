"""Two recordings of one run compared: an independent version, written by hand from document 02, U10.

A recording is a list of words; as a history it is a list of events, each (kind, thread, call number, value). Of two histories with the
same calls, calls are matched by thread and by rank on it.
"""

import itertools

import judge_model as jm

FIRST, SECOND = 1, 2
THREADS = range(17)


def refusal(words):
    """10, 12 or 13 of the judge's table; 0 for a recording that is not refused."""
    if len(words) % 4 or len(words) // 4 > jm.MAX_EVENTS:
        return 10
    return jm.refusal(jm.events_of(words))


def events_of_thread(history, thread):
    return [event for event in history if event[1] == thread]


def same_calls(first, second):
    """Every thread has the same events in the same order in both."""
    return all(events_of_thread(first, thread) == events_of_thread(second, thread) for thread in THREADS)


def shared_events(first, second):
    """How many events the longest shared beginning has."""
    return len(list(itertools.takewhile(lambda pair: pair[0] == pair[1], zip(first, second))))


def rest_of_longer(first, second):
    """The rest of the longer of two histories after their longest shared beginning: (recording, word at which it begins)."""
    return (SECOND if len(second) > len(first) else FIRST, 4 * shared_events(first, second))


def compare(first_words, second_words):
    """The reply, 'same', 'other' or ('refused', recording, number); and the part that is handed back, as (recording, word at which it
    begins)."""
    for recording, words in ((FIRST, first_words), (SECOND, second_words)):
        if refusal(words):
            return ('refused', recording, refusal(words)), (FIRST, len(first_words))
    first, second = jm.events_of(first_words), jm.events_of(second_words)
    return 'same' if same_calls(first, second) else 'other', rest_of_longer(first, second)


def part(first_words, second_words):
    """The words that are handed back."""
    recording, begin = compare(first_words, second_words)[1]
    return (first_words if recording == FIRST else second_words)[begin:]


def for_c(first_words, second_words, said):
    """What C gets: the number that is returned, and the words of the reply after those that were said before."""
    reply, rest = compare(first_words, second_words)
    if reply[0] == 'refused':
        return reply[2], (reply[1], *rest, said[3])
    return ('same', 'other').index(reply), (said[0], *rest, said[3])


def calls_by_rank(history):
    """The calls of a valid history under (thread, rank)."""
    found, ranks = {}, dict.fromkeys(THREADS, 0)
    for call in jm.calls_of(history):
        thread = history[call.start - 1][1]
        found[thread, ranks[thread]] = call
        ranks[thread] += 1
    return found


def keeps_precedence(first, second):
    """Everything that ended before something started in the second also did so in the first: of every two calls, matched by thread and
    rank."""
    before, none = calls_by_rank(first), jm.Call(0, 0, 0, None)
    matched = [(before.get(key, none), call) for key, call in calls_by_rank(second).items()]
    starts = [(one.start, two.start) for one, two in matched]
    ends = [(one.end, two.end) for one, two in matched if two.end]
    return all(0 < end_1 < start_1 for end_1, end_2 in ends for start_1, start_2 in starts if end_2 < start_2)


def trusted(first_words, second_words):
    """Whether the second may be trusted on the word of the first: neither is refused, they have the same calls, and the second keeps
    precedence."""
    if refusal(first_words) or refusal(second_words):
        return False
    first, second = jm.events_of(first_words), jm.events_of(second_words)
    return same_calls(first, second) and keeps_precedence(first, second)
