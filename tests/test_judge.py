"""The judge: its runs, its refusals, its table, and the polynomial checks against all orders."""

import itertools
import random
import unittest

import intake_model as im
import judge_model as jm
from histories import DEQ, EMPTY, done, enq, item
from judge_model import flatten, judge


def word(history):
    """The judge's word on a history that it does not refuse."""
    return judge(flatten(history), len(history))[0]


class Runs(unittest.TestCase):
    """The runs of document 01 that speak of histories."""

    def test_empty_history(self):
        """A judge that needs an event to find anything explained."""
        self.assertEqual(judge([], 0), ('explained', []))

    def test_empty_answer_after_an_ended_enqueue(self):
        """A judge that lets a dequeue miss an ended enqueue."""
        self.assertEqual(word([enq(1), done(1), DEQ, EMPTY]), 'unexplained')

    def test_item_of_an_enqueue_under_way(self):
        """A judge that drops every call under way."""
        self.assertEqual(word([enq(1), DEQ, item(1)]), 'explained')

    def test_later_item_first(self):
        """A judge that lets a dequeue overtake an ended enqueue."""
        self.assertEqual(word([enq(1), done(1), enq(2), DEQ, item(2)]), 'unexplained')

    def test_overlapping_enqueues_in_either_order(self):
        """A judge that takes call numbers for the order of the queue."""
        start = [enq(1), enq(2, 2), done(1), done(2, 2), DEQ]
        self.assertEqual(word(start + [item(2), DEQ, item(1)]), 'explained')
        self.assertEqual(word(start + [item(1), DEQ, item(2)]), 'explained')

    def test_overlapping_dequeue_may_be_empty(self):
        """A judge that orders a dequeue by its end instead of by what it overlaps."""
        self.assertEqual(word([enq(1), DEQ, done(1), EMPTY]), 'explained')

    def test_item_never_started_or_with_another_value(self):
        """A judge that looks at call numbers alone, or at values alone."""
        self.assertEqual(word([enq(1), done(1), DEQ, item(2)]), 'unexplained')
        self.assertEqual(word([enq(1), done(1), DEQ, item(1, 8)]), 'unexplained')

    def test_item_given_twice(self):
        """A judge that does not remove what a dequeue gave."""
        self.assertEqual(word([enq(1), done(1), DEQ, item(1), DEQ, item(1)]), 'unexplained')

    def test_item_started_after_the_dequeue(self):
        """A judge that looks for the start in the whole history."""
        self.assertEqual(word([DEQ, item(1), enq(1)]), 'unexplained')

    def test_4096_events_pass_4097_do_not(self):
        """A limit on events that is off by one; the longest history is explained."""
        history = [event for k in range(1, 1025) for event in (enq(k), done(k), DEQ, item(k))]
        for decide in (jm.explained_in_time, jm.explained_by_mark):
            reply, rows = judge(flatten(history), 4096, decide)
            self.assertEqual((reply, len(rows)), ('explained', 2048))
        self.assertEqual(judge(flatten(history + [DEQ]), 5000), ('refused', 10))

    def test_working_table(self):
        """A row in ending order, an end of a call under way, or an answer where there is none."""
        history = [enq(5, 3), DEQ, enq(2, 1), item(5), DEQ, EMPTY, done(2, 1), DEQ]
        rows = [(1, 1, 0, 0), (3, 2, 4, 5), (1, 3, 7, 0), (3, 5, 6, 0), (3, 8, 0, 0)]
        self.assertEqual(judge(flatten(history), 8), ('explained', rows))


class Refusals(unittest.TestCase):
    """10 to 13 and 16, in order."""

    def refusal(self, history, table=None):
        reply = judge(flatten(history), len(history) if table is None else table)
        return reply[1] if reply[0] == 'refused' else None

    def test_10_comes_before_11(self):
        """A length that is no multiple of four, and the order of the first two checks."""
        for length in (1, 2, 3, 5):
            self.assertEqual(judge([0] * length, 0), ('refused', 10))
        self.assertEqual(judge([0] * 4 * 4097, 0), ('refused', 10))

    def test_11_comes_before_12(self):
        """A table with fewer entries than events, however many calls there are."""
        history = [enq(1), done(1)]
        self.assertEqual(self.refusal(history, 1), 11)
        self.assertIsNone(self.refusal(history, 2))
        self.assertEqual(self.refusal([(9, 9, 9, 9)], 0), 11)

    def test_12_forms(self):
        """An event with a wrong kind, thread, call number or a word that should be zero."""
        bad = [(0, 0, 0, 0), (6, 0, 0, 0), (1, 0, 1, 7), (1, 17, 1, 7), (1, 1, 0, 7), (2, 0, 1, 7), (2, 17, 1, 7)]
        bad += [(2, 1, 0, 7), (3, 1, 0, 0), (3, 0, 1, 0), (3, 0, 0, 1), (4, 1, 1, 7), (4, 0, 0, 7)]
        bad += [(5, 1, 0, 0), (5, 0, 1, 0), (5, 0, 0, 1)]
        for event in bad:
            self.assertEqual(self.refusal([event]), 12, event)
        self.assertIsNone(self.refusal([(1, 16, 2**32 - 1, 2**32 - 1), DEQ]))

    def test_13_orders(self):
        """A busy thread, an end without its start or with other words, or a call number started twice."""
        bad = [[enq(1), enq(2)], [DEQ, DEQ], [done(1)], [item(1)], [EMPTY], [enq(1), done(1), done(1)]]
        bad += [[enq(1), done(2)], [enq(1), done(1, 1, 8)], [enq(1), done(1, 2)], [enq(1), EMPTY]]
        bad += [[enq(1), enq(1, 2)], [enq(1), done(1), enq(1)], [DEQ, EMPTY, EMPTY]]
        for history in bad:
            self.assertEqual(self.refusal(history), 13, history)

    def test_16_comes_after_13(self):
        """An order's buffer with fewer words than started calls, whatever the verdict; more are not needed."""
        for history, number in (([DEQ, EMPTY, DEQ], 16), ([enq(1), done(1), DEQ, EMPTY], 16), ([DEQ, DEQ], 13), ([DEQ, EMPTY, enq(0)], 12)):
            self.assertEqual(judge(flatten(history), 4, order_len=1), ('refused', number), history)
            self.assertEqual(judge(flatten(history), 1, order_len=1), ('refused', 11), history)
        self.assertEqual(judge(flatten([DEQ, EMPTY]), 2, order_len=1)[0], 'explained')
        self.assertEqual(judge([], 0, order_len=0)[0], 'explained')

    def test_each_event_in_turn(self):
        """All forms checked before all orders, instead of event by event."""
        self.assertEqual(self.refusal([EMPTY, (9, 0, 0, 0)]), 13)
        self.assertEqual(self.refusal([DEQ, (9, 0, 0, 0), DEQ]), 12)
        self.assertEqual(self.refusal([(5, 0, 0, 1)]), 12)


class Queues(unittest.TestCase):
    """The queues that linearizations leave."""

    def test_overlapping_enqueues(self):
        """An order lost, or a call under way that is always kept or always dropped."""
        a, b = (1, 7), (2, 7)
        self.assertEqual(jm.linearizations_leaving([]), {()})
        self.assertEqual(jm.linearizations_leaving([enq(1), done(1), enq(2)]), {(a,), (a, b)})
        self.assertEqual(jm.linearizations_leaving([enq(1), enq(2, 2), done(1)]), {(a,), (a, b), (b, a)})

    def test_dequeue_under_way(self):
        """A kept dequeue under way that removes nothing, or that must find the queue empty."""
        a, b = (1, 7), (2, 7)
        self.assertEqual(jm.linearizations_leaving([enq(1), done(1), DEQ]), {(a,), ()})
        history = [enq(1), done(1), enq(2), done(2), DEQ]
        self.assertEqual(jm.linearizations_leaving(history), {(a, b), (b,)})

    def test_unexplained_leaves_nothing(self):
        """A queue left by an order that is none."""
        self.assertEqual(jm.linearizations_leaving([enq(1), done(1), DEQ, EMPTY]), set())


class Criteria(unittest.TestCase):
    """All orders against the polynomial checks."""

    def assert_agree(self, history):
        explained = jm.explained_by_all_orders(history)
        self.assertEqual(jm.explained_in_time(history), explained, history)
        self.assertEqual(jm.explained_by_mark(history), explained, history)
        return explained

    def test_every_short_history(self):
        """A criterion wrong on some valid history of at most six events, of two producers and three items."""
        verdicts = [self.assert_agree(history) for history in every_history(6)]
        self.assertGreater(sum(verdicts), 500)
        self.assertGreater(verdicts.count(False), 500)

    def test_random_histories(self):
        """A criterion wrong on calls under way, repeats, wrong values, missed or reordered items."""
        rng = random.Random(5)
        verdicts = [self.assert_agree(random_history(rng)) for _ in range(4000)]
        self.assertGreater(sum(verdicts), 800)
        self.assertGreater(verdicts.count(False), 800)

    def test_damaged_histories_of_the_engine(self):
        """A criterion wrong on what an engine makes, whole or with one dequeue's answer changed."""
        rng = random.Random(6)
        verdicts = []
        for seed in range(400):
            history = engine_history(seed)
            self.assertTrue(self.assert_agree(history))
            verdicts.append(self.assert_agree(with_another_answer(rng, history)))
        self.assertGreater(verdicts.count(False), 100)

    def test_queues_left(self):
        """A rest that the polynomial check allows and no order leaves, or the other way round."""
        rng = random.Random(7)
        checked = 0
        while checked < 300:
            history = close_dequeue(random_history(rng, size=9))
            left = jm.linearizations_leaving(history)
            items = [(number, value) for kind, _, number, value in history if kind == 1]
            if len(items) > 4:
                continue
            checked += 1
            for size in range(len(items) + 1):
                for rest in itertools.permutations(items, size):
                    self.assertEqual(jm.leaves(history, rest), rest in left, (history, rest))


def every_history(length):
    """Every valid history of at most so many events: producers 1 and 2 start calls 1, 2, 3 in turn; a dequeue's item
    is any of them, started or not."""
    yield from extensions((), length)


def extensions(history, length):
    yield list(history)
    if len(history) == length:
        return
    for event in following_events(history):
        yield from extensions(history + (event,), length)


def following_events(history):
    running, started = {}, 0
    for event in history:
        if event[0] in (1, 3):
            running[event[1]] = event
            started += event[0] == 1
        else:
            del running[event[1]]
    events = [(2,) + running[t][1:] if t in running else enq(started + 1, t) for t in (1, 2)]
    events = [event for event in events if event[2] <= 3]
    return events + ([item(1), item(2), item(3), EMPTY] if 0 in running else [DEQ])


def random_history(rng, size=13):
    """A valid history with answers that are mostly near the truth."""
    history, running, queue, next_call = [], {}, [], 1
    threads = rng.randint(1, 3)
    for _ in range(rng.randint(1, size)):
        t = rng.randint(0, threads)
        if t in running and t:
            history.append((2,) + running.pop(t)[1:])
        elif t:
            running[t] = enq(next_call, t, rng.choice((7, 8)))
            queue.insert(rng.choice((0, len(queue), len(queue))), running[t][2:])
            history.append(running[t])
            next_call += rng.choice((1, 1, 2))
        elif t in running:
            del running[t]
            history.append(random_answer(rng, queue, next_call))
        else:
            running[t] = DEQ
            history.append(DEQ)
    return history


def random_answer(rng, queue, next_call):
    """Mostly the front of the queue; sometimes another item, a repeat, a wrong value, or empty."""
    chance = rng.random()
    if queue and chance < 0.7:
        return item(*queue.pop(0 if chance < 0.6 else rng.randrange(len(queue))))
    if queue and chance < 0.75:
        return item(queue[0][0], 15 - queue[0][1])
    if chance < 0.85:
        return item(rng.randint(1, next_call))
    return EMPTY


def close_dequeue(history):
    """The history without its dequeue under way."""
    open_dequeues = [k for k, event in enumerate(history) if event[0] == 3]
    answered = sum(event[0] in (4, 5) for event in history)
    if len(open_dequeues) == answered:
        return history
    return history[: open_dequeues[-1]] + history[open_dequeues[-1] + 1 :]


def engine_history(seed):
    """The history of a short random run of the model, with drains."""
    rng = random.Random(seed)
    recorder = im.Recorder(2, 3, 2, 5)
    for _ in range(70):
        t = rng.randrange(3)
        start = rng.choice((('d',), ('drain', 2))) if t == 0 else ('e', t, rng.choice((7, 8)))
        recorder.call(('s', t, [0] * 4, 0) if t in recorder.busy else start)
        if len(recorder.history) >= 14:
            break
    return list(recorder.history)


def with_another_answer(rng, history):
    """One dequeue's answer changed to empty or to any item."""
    answers = [k for k, event in enumerate(history) if event[0] in (4, 5)]
    if not answers:
        return history
    k = rng.choice(answers)
    return history[:k] + [rng.choice((EMPTY, item(rng.randint(1, 5), rng.choice((7, 8)))))] + history[k + 1 :]


if __name__ == '__main__':
    unittest.main()
