"""How long a call can last: for each call under way a number that bounds the accepted steps it has yet to take.

Each accepted step of its own lowers it, and no call of another thread raises it. So what it is after a start bounds the
steps that follow, whatever others do in between; a step refused with 8 is not accepted. The start of an enqueue is a
step itself. A measure is read off the words alone. It is meant for stores that only the engine has written.
"""

import intake_model as im
from intake_model import HANDLED, USE_LINKED, thread_of
from step_counts import Tally, steps_of


def triangle(n):
    return n * (n + 1) // 2


def records_for(B, positions):
    """How many records hold so many positions in a row that begin with a record."""
    return (positions + B - 1) // B


def last_load_steps(N):
    """From a load that leads to no further round, by a producer that has made one: N - 2 steps back and phases 8 and 9, or
    phases 8 to 11."""
    return max(N + 1, 5)


def most_enqueue_steps(B, N, P):
    """The start of an enqueue, its first step, and the measure then, at the most."""
    return 1 + 5 * records_for(B, P) + last_load_steps(N)


def most_dequeue_steps(B, N):
    """The measure of a dequeue at its start, at the most."""
    return N * (5 * B + 3) + 3 * B + 1 + triangle(N * (B + 1))


def next_item_steps(B, N):
    """From the end of a drain's item to the end of the next: N records passed and left, entries passed in one more, then
    phases 1, 6, 7 and 8."""
    return N * (B + 1) + B + 4


def most_drain_steps(B, N, limit):
    """The measure of a drain at its start, at the most; with limit 0 that of a dequeue."""
    return most_dequeue_steps(B, N) + max(0, limit - 1) * next_item_steps(B, N)


def most_steps(words, t):
    """The steps of the call under way, at the most."""
    return most_enqueue_steps(*words[:3]) if t else most_drain_steps(*words[:2], im.drain_word(words, im.LIMIT))


class Records:
    """What the measures read of the records."""

    def __init__(self, words):
        first, size = words[5], im.record_words(words[0])
        last = first + words[1] * size
        self.places = words[first + im.PLACE : last : size]
        uses = words[first + im.USE : last : size]
        states = words[first + im.RECORD_HEAD + im.STATE : last : size]
        self.linked = [place for place, use in zip(self.places, uses) if use == USE_LINKED]
        self.begun = list(zip(uses, states)).count((USE_LINKED, HANDLED))  # linked ones whose first entry is handled

    def place(self, number):
        """The place of the record that a stored number names."""
        return self.places[number - 1]

    def rank(self, place):
        """How many linked records are before a place."""
        return sum(other < place for other in self.linked)


def of_enqueue(words, t, records):
    """Each round of phases 2 to 6, five steps, leaves the tail record at a later place, until it is no longer before the
    call's position; then each phase 7 leaves one record less to go back over. The tail record that was loaded is none of
    these, nor is a record before the position's that the producer still holds when it loads."""
    B, N = words[:2]
    own = im.CONTENTS + im.THREAD_WORDS * t
    phase, position, held, back = (words[own + k] for k in (im.PHASE, im.POSITION, im.HELD, im.BACK))

    def ahead(place):
        """How many records past that of a place the position is; 0 if it is not past it."""
        return records_for(B, max(0, position + 1 - B * place))

    if phase == 0:
        return 0
    place = records.place(held) if held else 0
    if phase == 2:
        rounds, holds_earlier = ahead(records.place(words[im.TAIL_RECORD])), held and B * place <= position
        return 5 * rounds + last_load_steps(N) + (rounds == 0 and not holds_earlier)
    if phase <= 6:
        return 7 - phase + 5 * ahead(place + 1) + last_load_steps(N)
    if phase == 7:
        return 2 + sum(position < B * other and other < place for other in records.places)
    return 12 - phase - (2 if phase <= 9 and back else 0)


def of_dequeue(words, records):
    """The front passes handled entries and leaves the records that they fill; the scan passes positions up to the last
    record's end. The rescan passes those before found, and each find is before the one it replaces. A drain has the items
    that are yet to come too, none of which is scanned for."""
    B, N = words[:2]
    phase, cursor, cursor_position, found, found_position = words[im.CONTENTS : im.CONTENTS + 5]
    limit, count = (im.drain_word(words, k) for k in (im.LIMIT, im.COUNT))
    rescans = triangle(N * (B + 1))
    later = max(0, limit - count - (phase != 8)) * next_item_steps(B, N)

    def far(position, place):
        """The steps of a rescan from the beginning of the head record to a position of the record of a place."""
        return (B + 1) * records.rank(place) + max(0, position + B - B * place)

    def this_one():
        """The steps to the end of the item that it is about."""
        if phase <= 2:
            scan = (2 * B + 1) * (N + records.begun) + 2 * B + rescans
            to_end = max(0, B * records.place(words[im.HEAD_RECORD]) - words[im.HEAD_POSITION])
            passing = (B + 1) * records.begun + to_end
            return (0, passing + (4 if count else 1 + scan), scan)[phase]
        if phase <= 4:
            place = records.place(cursor)
            records_left = max(0, N - records.rank(place)) + records.begun
            return (2 * B + 1) * records_left + 2 * max(0, B * place - cursor_position) + rescans - (phase == 4)
        if phase == 5:
            to_found = far(found_position, records.place(found))
            return triangle(to_found) + max(0, to_found - far(cursor_position, records.place(cursor))) + 3
        return 9 - phase

    return this_one() + later


def measures(words):
    """The measure of each thread, the consumer's first; 0 for an idle one."""
    records = Records(words)
    return (of_dequeue(words, records), *(of_enqueue(words, t, records) for t in range(1, words[2] + 1)))


def broken(call, reply, words, words_after, before, after):
    """What an accepted call breaks: the words around it, then the measures around it."""
    t = thread_of(call)
    others = [u for u in range(len(before)) if u != t]
    bad = [f'measure: raised or used up by another, {u}' for u in others if not min(before[u], 1) <= after[u] <= before[u]]
    if call[0] != 's':
        step = int(call[0] == 'e')
        bad += ['measure: at a start'] * (not 1 <= after[t] <= most_steps(words_after, t) - step)
        return bad + ['measure: too many positions past the tail record'] * (step and past_the_tail_record(words) > words[2])
    if reply[0] == 'going':
        bad += ['measure: not lowered'] * (not 1 <= after[t] < before[t])
    else:
        bad += ['measure: used up before the end'] * (before[t] < 1)
    return bad


def past_the_tail_record(words):
    """The positions past the tail record that are taken, and the next one."""
    return words[im.TAIL] + 1 - words[0] * Records(words).place(words[im.TAIL_RECORD])


class Lengths:
    """The steps and the measures of the calls of one run."""

    def __init__(self, words):
        self.tally, self.left = Tally(), measures(words)

    def wrong(self, call, reply, before, words):
        """What is wrong with an accepted call: its number of steps, its measure, or the two together."""
        was, self.left = self.left, measures(words)
        together = map(sum, zip(steps_of(words), self.left))
        bad = self.tally.add(call, reply) + self.tally.wrong(words) + broken(call, reply, before, words, was, self.left)
        return bad + [f'steps past the bound, {t}' for t, k in enumerate(together) if k > most_steps(words, t)]
