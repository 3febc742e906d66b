"""Recordings of one run as clocks that drift make them: the run's events in another order, in which each thread's stay as they are."""

import judge_model as jm
from histories import DEQ, EMPTY, done, enq, item


def by_thread(history):
    """The events of each thread that has some."""
    threads = {}
    for event in history:
        threads.setdefault(event[1], []).append(event)
    return list(threads.values())


def interleavings(threads):
    """All orders of the events of some threads."""
    if not any(threads):
        yield []
    for k, events in enumerate(threads):
        if events:
            for others in interleavings([*threads[:k], events[1:], *threads[k + 1 :]]):
                yield [events[0], *others]


def shuffled(rng, history):
    """Any order of the events."""
    order = [event[1] for event in history]
    rng.shuffle(order)
    threads = {events[0][1]: iter(events) for events in by_thread(history)}
    return [next(threads[thread]) for thread in order]


def drifted(rng, history, most=4):
    """The events by clocks that are up to so many events late, each thread's its own."""
    late = {thread: rng.uniform(0, most) for thread in range(17)}
    return [event for _, event in sorted(enumerate(history), key=lambda pair: pair[0] + late[pair[1][1]])]


def starts(event):
    return event[0] in (jm.ENQUEUE, jm.DEQUEUE)


def overlapping_more(rng, history, swaps):
    """Some neighbours of two threads swapped, but never a start and an end after it: what overlaps still does."""
    events = list(history)
    for k in (rng.randrange(len(events) - 1) for _ in range(swaps if len(events) > 1 else 0)):
        a, b = events[k : k + 2]
        if a[1] != b[1] and (not starts(a) or starts(b)):
            events[k : k + 2] = b, a
    return events


def with_calls_swapped(rng, history):
    """Two ended calls of some thread that follow each other, swapped: the thread has the same events in another order. The history itself where
    no thread has two."""
    threads = {}
    for k, event in enumerate(history):
        threads.setdefault(event[1], []).append(k)
    places = [four for ks in threads.values() for four in zip(ks[::2], ks[1::2], ks[2::2], ks[3::2])]
    events = list(history)
    if places:
        a, b, c, d = rng.choice(places)
        events[a], events[b], events[c], events[d] = (history[k] for k in (c, d, a, b))
    return events


def small_runs():
    """The threads' events of small runs: up to two enqueues of thread 1, one of thread 2 and two dequeues of any answers, each cut
    anywhere."""
    answers = [item(1), item(2), item(3), EMPTY]
    consumers = [[], [DEQ]] + [[DEQ, a] for a in answers] + [[DEQ, a, DEQ] for a in answers]
    consumers += [[DEQ, a, DEQ, b] for a in answers for b in answers]
    ones = [[enq(1), done(1), enq(3), done(3)][:k] for k in range(5)]
    twos = [[enq(2, 2), done(2, 2)][:k] for k in range(3)]
    return [[consumer, one, two] for consumer in consumers for one in ones for two in twos]
