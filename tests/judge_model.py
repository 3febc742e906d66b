"""An independent judge, written by hand from document 01.

`linearizations` and `orders` try all orders and know no criterion; they serve small histories. `explained_in_time`
and `explained_by_mark` are two polynomial checks for long ones, and `is_order` looks at one order; all are tested
against them. A history is a list of events, each (kind, thread, call number, value); an order is a list of starting
numbers: the call that started first has number 1.
"""

import bisect
from typing import NamedTuple

MAX_EVENTS = 4_096
ENQUEUE, ENQUEUED, DEQUEUE, ITEM, EMPTY = range(1, 6)


class Call(NamedTuple):
    """A started call. The end is 0 while it is under way; the item is what an enqueue puts or a dequeue gave."""

    kind: int
    start: int
    end: int
    item: tuple | None

    def row(self):
        """Its record in the working table."""
        answered = self.kind == DEQUEUE and self.item is not None
        return (self.kind, self.start, self.end, self.item[0] if answered else 0)


def flatten(history):
    """The words of a history."""
    return [word for event in history for word in event]


def events_of(words):
    return [tuple(words[k : k + 4]) for k in range(0, len(words), 4)]


def calls_of(history):
    """The calls of a valid history in starting order."""
    calls, running = [], {}
    for at, (kind, thread, number, value) in enumerate(history, 1):
        if kind in (ENQUEUE, DEQUEUE):
            running[thread] = len(calls)
            calls.append(Call(kind, at, 0, (number, value) if kind == ENQUEUE else None))
        else:
            k = running.pop(thread)
            item = (number, value) if kind == ITEM else calls[k].item
            calls[k] = calls[k]._replace(end=at, item=item)
    return calls


# All orders.


def put_through(call, queue):
    """The queue after a call has run on it; None when it cannot have given its answer there."""
    if call.kind == ENQUEUE:
        return queue + (call.item,)
    if call.end == 0:
        return queue[1:]
    if call.item is None:
        return queue if not queue else None
    return queue[1:] if queue and queue[0] == call.item else None


class Beginnings:
    """The beginnings of linearizations: each the set of its calls, as bits, and the queue after them."""

    FIRST = (0, ())

    def __init__(self, history):
        self.calls = calls_of(history)
        self.ended = sum(1 << k for k, call in enumerate(self.calls) if call.end)
        self.earlier = [sum(1 << k for k, other in enumerate(self.calls) if 0 < other.end < call.start) for call in self.calls]

    def is_whole(self, beginning):
        """Whether it has all ended calls."""
        return not self.ended & ~beginning[0]

    def longer(self, beginning):
        """Each that has one more call, after the starting number of that call."""
        ordered, queue = beginning
        for k, call in enumerate(self.calls):
            if ordered >> k & 1 or self.earlier[k] & ~ordered:
                continue
            after = put_through(call, queue)
            if after is not None:
                yield k + 1, (ordered | 1 << k, after)


def linearizations(history):
    """Yield the queue that each linearization leaves. Two orders of the same calls that meet in one queue are
    followed once."""
    beginnings = Beginnings(history)
    seen, stack = set(), [Beginnings.FIRST]
    while stack:
        beginning = stack.pop()
        if beginning in seen:
            continue
        seen.add(beginning)
        if beginnings.is_whole(beginning):
            yield beginning[1]
        stack += [longer for _, longer in beginnings.longer(beginning)]


def orders(history):
    """The set of all linearizations, as starting numbers."""
    beginnings = Beginnings(history)
    found, stack = set(), [((), Beginnings.FIRST)]
    while stack:
        numbers, beginning = stack.pop()
        if beginnings.is_whole(beginning):
            found.add(numbers)
        stack += [((*numbers, number), longer) for number, longer in beginnings.longer(beginning)]
    return found


def linearizations_leaving(history):
    """The set of all queues that some linearization leaves."""
    return set(linearizations(history))


def explained_by_all_orders(history):
    return next(linearizations(history), None) is not None


# Polynomial checks.


def explained_in_time(history):
    """Every dequeue's end is in order at the moment it happens.
    With item x: x was started with that value, is untaken, and all that ended before x started are taken.
    Empty: all that ended before this dequeue started are taken."""
    values, ended, taken = {}, set(), set()
    ended_before = {}  # call number, or 0 for the dequeue -> what had ended at its start
    for kind, _, number, value in history:
        if kind == ENQUEUE:
            values[number] = value
            ended_before[number] = frozenset(ended)
        elif kind == ENQUEUED:
            ended.add(number)
        elif kind == DEQUEUE:
            ended_before[0] = frozenset(ended)
        elif kind == EMPTY:
            if not ended_before[0] <= taken:
                return False
        else:
            if values.get(number) != value or number in taken or not ended_before[number] <= taken:
                return False
            taken.add(number)
    return True


def explained_by_mark(history):
    """Go through the dequeues in starting order with a running mark, 0 at first. Ended empty: the mark rises to its
    start. Ended with an item: the enqueue is there with that value, untaken, started before this dequeue ended, and
    has not ended before the mark, which rises to its start. At the end every ended untaken enqueue has its end at
    or past the mark."""
    calls = calls_of(history)
    untaken = {call.item[0]: call for call in calls if call.kind == ENQUEUE}
    mark = 0
    for dequeue in calls:
        if dequeue.kind == ENQUEUE or dequeue.end == 0:
            continue
        if dequeue.item is None:
            mark = max(mark, dequeue.start)
            continue
        enqueue = untaken.pop(dequeue.item[0], None)
        if enqueue is None or enqueue.item != dequeue.item or enqueue.start > dequeue.end:
            return False
        if 0 < enqueue.end < mark:
            return False
        mark = max(mark, enqueue.start)
    return all(call.end == 0 or call.end >= mark for call in untaken.values())


def leaves(history, rest):
    """Whether some linearization of a history with no dequeue under way leaves `rest`: the history is explained;
    rest is of untaken enqueues, holds every ended one, has no repeats, and never puts b after a where b ended
    before a started."""
    calls = calls_of(history)
    taken = {call.item for call in calls if call.kind == DEQUEUE and call.item}
    untaken = {call.item: call for call in calls if call.kind == ENQUEUE and call.item not in taken}
    rest = list(rest)
    if not explained_in_time(history) or len(set(rest)) != len(rest) or not set(rest) <= set(untaken):
        return False
    if any(call.end and item not in rest for item, call in untaken.items()):
        return False
    latest_start = 0
    for call in (untaken[item] for item in rest):
        if 0 < call.end < latest_start:
            return False
        latest_start = max(latest_start, call.start)
    return True


# One order.


def is_order(history, numbers):
    """Whether some numbers are the starting numbers of a linearization of a valid history."""
    calls, kept = calls_of(history), set(numbers)
    if not all(1 <= number <= len(calls) for number in numbers) or len(kept) < len(numbers):
        return False
    if any(call.end and number not in kept for number, call in enumerate(calls, 1)):
        return False
    latest_start, queue = 0, ()
    for call in (calls[number - 1] for number in numbers):
        queue = put_through(call, queue)
        if queue is None or 0 < call.end < latest_start:
            return False
        latest_start = max(latest_start, call.start)
    return True


def late_order(history):
    """The linearization of an explained history in which each enqueue stands as late as it may. Kept are the dequeues
    that have ended, in starting order, and the enqueues whose items they took, in that order, then the other ended ones by
    their starts. An enqueue is due before the dequeue that takes its item, before the first that started after it had
    ended, and no later than those behind it."""
    calls = list(enumerate(calls_of(history), 1))
    dequeues = [(number, call) for number, call in calls if call.kind == DEQUEUE and call.end]
    takers = {call.item: k for k, (_, call) in enumerate(dequeues) if call.item}
    starts, last = [call.start for _, call in dequeues], len(dequeues)
    enqueues = [(takers.get(call.item, last), number, call) for number, call in calls if call.kind == ENQUEUE]
    line = sorted(enqueue for enqueue in enqueues if enqueue[0] < last or enqueue[2].end)
    places = [(k, 1, 0, number) for k, (number, _) in enumerate(dequeues)]
    due = last
    for at, (taker, number, call) in reversed(list(enumerate(line))):
        due = min(due, taker, bisect.bisect(starts, call.end) if call.end else last)
        places.append((due, 0, at, number))
    return [number for *_, number in sorted(places)]


def queue_lengths(history, numbers):
    """How long the queue is after each call of an order."""
    calls, queue, lengths = calls_of(history), (), []
    for number in numbers:
        queue = put_through(calls[number - 1], queue)
        lengths.append(len(queue))
    return lengths


# The judge.


def well_formed(event):
    kind, thread, number, value = event
    if kind in (ENQUEUE, ENQUEUED):
        return 1 <= thread <= 16 and number >= 1
    if kind == ITEM:
        return thread == 0 and number >= 1
    return kind in (DEQUEUE, EMPTY) and (thread, number, value) == (0, 0, 0)


def refusal(history):
    """12 or 13, each event in turn; 0 for a valid history."""
    running, started = {}, set()
    for event in history:
        if not well_formed(event):
            return 12
        kind, thread, number, value = event
        if kind in (ENQUEUE, DEQUEUE):
            if thread in running or kind == ENQUEUE and number in started:
                return 13
            running[thread] = (number, value)
            started.add(number)
        else:
            if thread not in running or kind == ENQUEUED and running[thread] != (number, value):
                return 13
            del running[thread]
    return 0


def judge(words, table_len, decide=explained_by_all_orders, order_len=MAX_EVENTS):
    """('refused', number), or ('explained', rows) or ('unexplained', rows) with the rows of the working table."""
    if len(words) % 4 or len(words) // 4 > MAX_EVENTS:
        return ('refused', 10)
    history = events_of(words)
    if table_len < len(history):
        return ('refused', 11)
    number = refusal(history)
    if number:
        return ('refused', number)
    rows = [call.row() for call in calls_of(history)]
    if order_len < len(rows):
        return ('refused', 16)
    return ('explained' if decide(history) else 'unexplained', rows)


def check(words, numbers):
    """('refused', number), or 'yes' or 'no': the reply to a history and an order."""
    reply = judge(words, MAX_EVENTS, lambda history: True)
    if reply[0] == 'refused':
        return reply
    return 'yes' if is_order(events_of(words), numbers) else 'no'
