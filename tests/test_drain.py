"""Emptying the tray in one call (document 02, U5): drains of the model, their histories and buffers, stores that no engine
wrote, how long drains last, and wrong engines that the runs tell from the right one."""

import collections
import random
import unittest
from functools import partial

import drain_stores
import explore
import intake_model as im
import longest_drain
import step_counts
from intake_model import MOST_STEPS, Intake, Recorder, start_drain, step
from measures import most_drain_steps
from test_model import D, E, OK, S, dequeue_whole, end, enqueue_whole, going, opened, random_store, refused, started

MARK = 9  # in the words of a buffer
DEQ, NOTHING = (3, 0, 0, 0), (5, 0, 0, 0)


def drain(limit):
    return [('drain', limit)]


def drained(items, steps):
    return [('drained', items, steps)]


def lend(buffer, times=1, named=0):
    """Steps of the consumer that are lent a buffer."""
    return [('s', 0, buffer, named)] * times


def room(items):
    return [MARK] * 2 * items


def item(call, value):
    return (4, 0, call, value)


def opening(engine):
    """What opens a store for a run."""
    return partial(Recorder, engine=engine)


def drain_whole(recorder, limit, most=500):
    """Run a drain to its end: the words of its items, and the number of its steps."""
    buffer = room(64)
    recorder.call(*drain(limit))
    for _ in range(most):
        reply = recorder.call(*lend(buffer))
        if reply[0] != 'going':
            return buffer[: 2 * reply[1]], reply[2]
    return None


# Wrong engines.


class GoesOnAfterTheScan(Intake):
    """A drain forgets that it came to its item through the scan."""

    def rescan(self):
        reply = super().rescan()
        if self.mine(im.PHASE) == 6:
            self.put(im.SCANNED, 0)
        return reply


class ScansForMore(Intake):
    """A drain that has an item scans where the front isn't set."""

    def not_set(self):
        return self.to(2)


class StopsAtRecordEnds(Intake):
    """A drain that has an item ends at the end of any head record."""

    def front(self):
        head, position = self.w[im.HEAD_RECORD] - 1, self.w[im.HEAD_POSITION]
        if self.drain(im.COUNT) and self.at_end(head, position):
            return self.end_drain()
        return super().front()


class KeepsItLate(Intake):
    """A drain keeps its item not from its mark, but from where a dequeue would reply it."""

    def keep_item(self):
        pass

    def reply_item(self):
        if self.draining():
            super().keep_item()
        return super().reply_item()


class LeavesTheArea(Intake):
    """A drain that ends leaves its words behind the records."""

    def end_drain(self):
        area = self.w[self.area :]
        reply = super().end_drain()
        self.w[self.area :] = area
        return reply


class LooksAtTheBufferFirst(Intake):
    """15 comes before the 9 of the number of steps."""

    def counted(self, reply, so_far):
        self.fit(reply)
        return super().counted(reply, so_far)


class AsksForRoomEarly(Intake):
    """15 at every step of a drain that has more items than the buffer has room for."""

    def fit(self, reply):
        if self.room < 2 * self.drain(im.COUNT):
            raise im.Refused(15)
        super().fit(reply)


DRAINING = (GoesOnAfterTheScan, ScansForMore, StopsAtRecordEnds, KeepsItLate, LeavesTheArea)


class Runs(unittest.TestCase):
    """Drains step by step, by hand from the paper."""

    def test_forty_items(self):
        """A drain that does not take all that wait, in their order, each in three steps and one more where it leaves a record;
        that writes elsewhere in the buffer; or that needs a step more where its limit is reached."""
        recorder, buffer = forty_waiting(Recorder), [MARK] * 100
        replies = recorder.run(drain(64) + lend(buffer, 125, named=3))
        self.assertEqual(replies, [OK] + going(1, 124) + drained(40, 125))
        self.assertEqual(buffer, [MARK] * 3 + FORTY + [MARK] * 17)
        self.assertEqual((im.items_left(recorder.words), recorder.under_way()), ([], []))
        self.assertEqual(recorder.words[16:24] + recorder.words[-130:], [0] * 138)
        self.assertEqual(drain_whole(forty_waiting(Recorder), 40), (FORTY, 124))
        self.assertEqual(drain_whole(forty_waiting(Recorder), 39), (FORTY[:-2], 121))

    def test_forty_dequeues(self):
        """Dequeues that take other items than one drain, or other steps."""
        recorder = forty_waiting(Recorder)
        replies = [dequeue_whole(recorder) for _ in range(40)]
        self.assertEqual([word for reply in replies for word in reply[1:3]], FORTY)
        self.assertEqual(sum(reply[3] for reply in replies), 124)

    def test_first_front_not_set(self):
        """A drain that goes on after a scan: it acts as one dequeue and ends with it."""
        recorder, buffer = Recorder(4, 2, 2, 9), room(1)
        recorder.run(E(1, 70) + S(1, 2))
        for v in (80, 81):
            enqueue_whole(recorder, 2, v)
        self.assertEqual(recorder.run(drain(5) + lend(buffer, 7)), [OK] + going(1, 6) + drained(1, 7))
        self.assertEqual((buffer, im.items_left(recorder.words)), ([2, 80], [(3, 81)]))

    def test_rescan_returns_to_the_head(self):
        """A drain that forgets how it came to its item where the rescan leads back to the front: the next front is set."""
        self.assertEqual(late_set_run(Recorder), (going(3, 6) + drained(1, 7), [1, 70]))
        self.assertEqual(late_set_run(opening(GoesOnAfterTheScan)), (going(3, 7), room(1)))

    def test_rescan_returns_to_the_head_and_a_record_is_left(self):
        """The same where phase 8 follows: the word that says so is kept there."""
        recorder, buffer = Recorder(2, 3, 2, 9), room(1)
        enqueue_whole(recorder, 2, 70)
        recorder.run(E(1, 80) + S(1, 2))
        self.assertEqual(dequeue_whole(recorder), ('item', 1, 70, 3))
        enqueue_whole(recorder, 2, 90)
        self.assertEqual(recorder.run(drain(9) + lend(buffer) + S(1)), [OK] + going(1) + going(4))
        self.assertEqual(recorder.run(lend(buffer, 5)), going(2, 6))
        self.assertEqual(recorder.words[16:24], [6, 0, 1, 1, 1, 0, 0, 6])
        self.assertEqual(recorder.run(lend(buffer, 2)), going(7, 8))
        self.assertEqual(recorder.words[16:24], [8, 0, 1, 0, 0, 2, 80, 8])
        self.assertEqual(recorder.run(lend(buffer)), drained(1, 9))
        self.assertEqual((buffer, im.items_left(recorder.words)), ([2, 80], [(3, 90)]))

    def test_overtaken(self):
        """A drain that scans past an unset front once it has an item, or that reads tail: producer 2 stands there, and
        producer 3 has overtaken it."""
        self.assertEqual(overtaken_run(Recorder), drained(1, 4))
        self.assertEqual(overtaken_run(opening(ScansForMore)), going(4))

    def test_set_just_in_time(self):
        """A drain that ends by what was so at its start: producer 2 sets the front before the drain reads it."""
        recorder, buffer = overtaken(Recorder), room(3)
        self.assertEqual(recorder.run(drain(64) + lend(buffer, 3) + S(2)), [OK] + going(1, 3) + going(4))
        self.assertEqual(recorder.run(lend(buffer, 7)), going(4, 9) + drained(3, 10))
        self.assertEqual(buffer, [1, 70, 2, 80, 3, 90])

    def test_handled_entries_and_record_ends(self):
        """A drain that ends where a handled entry or the end of a record is at the front."""
        self.assertEqual(passing_run(Recorder), ([1, 70, 3, 72, 4, 73], 12))
        self.assertEqual(passing_run(opening(StopsAtRecordEnds)), ([1, 70], 5))

    def test_empty_handed(self):
        """A drain that does not answer as a dequeue that answers empty does: at an empty front, at the end of the tail record,
        and after a scan."""
        recorder = Recorder(2, 2, 1, 9)
        self.assertEqual(recorder.run(drain(64) + S(0, 2)), [OK] + going(1) + drained(0, 2))
        for v in (70, 71):
            enqueue_whole(recorder, 1, v)
        self.assertEqual(drain_whole(recorder, 64), ([1, 70, 2, 71], 7))
        self.assertEqual(recorder.run(drain(64) + S(0)), [OK] + drained(0, 1))
        recorder = Recorder(2, 2, 1, 9)
        recorder.run(E(1, 70))
        self.assertEqual(recorder.run(drain(1) + S(0, 3)), [OK] + going(1, 2) + drained(0, 3))

    def test_words(self):
        """An item that is kept before its mark or after it; a phase 8 that keeps it again, or loses what is kept; words of found
        or item left where the drain is back in phase 1; a limit that counts down."""
        recorder, buffer = three_in(Recorder), room(3)
        self.assertEqual(recorder.run(drain(3)), [OK])
        for steps, (consumer, area) in enumerate(AREAS):
            self.assertEqual(recorder.words[16:24] + recorder.words[-130:], consumer + [steps] + area + [0] * (130 - len(area)))
            self.assertEqual(recorder.run(lend(buffer)), going(steps + 1) if steps < 9 else drained(3, 10))
        self.assertEqual(recorder.words[16:24] + recorder.words[-130:], [0] * 138)
        self.assertEqual(buffer, [1, 70, 2, 71, 3, 72])
        late = three_in(opening(KeepsItLate))
        late.run(drain(3) + lend(buffer, 6))
        self.assertEqual(late.words[-130:-124], [3, 1, 1, 70, 0, 0])

    def test_limit_reached_where_a_record_is_left(self):
        """A drain that ends at the mark though phase 8 follows, or that goes on from 8 past its limit."""
        recorder, buffer = three_in(Recorder), room(2)
        self.assertEqual(recorder.run(drain(2) + lend(buffer, 7)), [OK] + going(1, 6) + drained(2, 7))
        self.assertEqual((buffer, im.free_records(recorder.words)), ([1, 70, 2, 71], [0]))

    def test_the_area_is_left_zero(self):
        """A drain after which every call meets 3: the limit is 0 while the consumer is idle."""
        for engine, reply in ((Intake, ('ok', 4, 1)), (LeavesTheArea, refused(3))):
            recorder = three_in(opening(engine))
            drain_whole(recorder, 1)
            self.assertEqual(recorder.call(('e', 1, 7)), reply)


def forty_waiting(opened):
    """Forty items wait, in five records of eight. `opened` opens a store of some sizes for calls."""
    recorder = opened(8, 8, 2, 99)
    for k in range(40):
        enqueue_whole(recorder, 1 + k % 2, 700 + k)
    return recorder


FORTY = [word for k in range(40) for word in (1 + k, 700 + k)]

# The consumer's words but for its steps, and the first words of the drain area, before each step of a drain of limit 3 that
# takes three items, the third in another record.
IN_1 = [1, 0, 0, 0, 0, 0, 0]
AREAS = [
    (IN_1, [3]),
    ([6, 0, 0, 1, 0, 0, 0], [3]),
    ([7, 0, 0, 1, 0, 1, 70], [3]),
    (IN_1, [3, 1, 1, 70]),
    ([6, 0, 0, 1, 1, 0, 0], [3, 1, 1, 70]),
    ([7, 0, 0, 1, 1, 2, 71], [3, 1, 1, 70]),
    ([8, 0, 0, 0, 0, 2, 71], [3, 2, 1, 70, 2, 71]),
    (IN_1, [3, 2, 1, 70, 2, 71]),
    ([6, 0, 0, 2, 2, 0, 0], [3, 2, 1, 70, 2, 71]),
    ([7, 0, 0, 2, 2, 3, 72], [3, 2, 1, 70, 2, 71]),
]


def three_in(opened):
    """B = 2. Three items wait, the third in another record."""
    recorder = opened(2, 2, 1, 9)
    for v in (70, 71, 72):
        enqueue_whole(recorder, 1, v)
    return recorder


def late_set_run(opened):
    """B = 4. Producer 1 takes 0 and stops before phase 9. The drain steps twice. Producer 1 ends; producer 2 enqueues and
    ends. The replies of five more steps, and the buffer."""
    recorder, buffer = opened(4, 2, 2, 9), room(1)
    recorder.run(E(1, 70) + S(1, 2) + drain(5) + lend(buffer, 2) + S(1))
    enqueue_whole(recorder, 2, 80)
    return recorder.run(lend(buffer, 5)), buffer


def overtaken(opened):
    """B = 4. Producer 1 enqueues at 0, producer 2 takes 1 and stops before phase 9, producer 3 enqueues at 2."""
    recorder = opened(4, 2, 3, 9)
    enqueue_whole(recorder, 1, 70)
    recorder.run(E(2, 80) + S(2, 2))
    enqueue_whole(recorder, 3, 90)
    return recorder


def overtaken_run(opened):
    """The reply of a drain's fourth step, the first with an item."""
    return overtaken(opened).run(drain(64) + lend(room(1), 4))[-1:]


def passing_run(opened):
    """B = 2. Producer 1 takes 0 and stops before phase 9; producer 2 enqueues at 1 to 3. A dequeue takes the item of 1, then
    producer 1 ends. What a drain gives, and its steps."""
    recorder = opened(2, 3, 2, 9)
    recorder.run(E(1, 70) + S(1, 2))
    for v in (71, 72, 73):
        enqueue_whole(recorder, 2, v)
    dequeue_whole(recorder)
    recorder.run(S(1))
    return drain_whole(recorder, 64)


class Histories(unittest.TestCase):
    """What a drain is in a history."""

    ENQUEUED = ((1, 1, 1, 70), (2, 1, 1, 70), (1, 1, 2, 71), (2, 1, 2, 71), (1, 1, 3, 72), (2, 1, 3, 72))

    def test_marks(self):
        """A mark that is not told, or told where it ends the drain otherwise than by its item alone; a step to phase 8 that
        tells nothing."""
        recorder, buffer = three_in(Recorder), room(3)
        told = {0: (), 1: (DEQ,), 4: (DEQ, item(1, 70), DEQ), 7: (DEQ, item(1, 70), DEQ, item(2, 71), DEQ)}
        told[11] = told[7] + (item(3, 72),)
        for k, call in enumerate([*drain(3), *lend(buffer, 10)]):
            self.assertEqual(recorder.history, self.ENQUEUED + told[max(j for j in told if j <= k)])
            recorder.call(call)
        self.assertEqual(recorder.history, self.ENQUEUED + told[11])

    def test_the_last_end_moves(self):
        """A drain whose last item ends at its mark though the drain ends later, or that leaves a dequeue open; enqueue events in
        between that move."""
        recorder, buffer = overtaken(Recorder), room(1)
        before = recorder.history
        recorder.run(drain(64) + lend(buffer, 3) + E(1, 71))
        self.assertEqual(recorder.history, before + (DEQ, item(1, 70), DEQ, (1, 1, 4, 71)))
        self.assertEqual(recorder.run(lend(buffer)), drained(1, 4))
        self.assertEqual(recorder.history, before + (DEQ, (1, 1, 4, 71), item(1, 70)))

    def test_empty_handed(self):
        """A drain with no item that is anything else than a dequeue that answered empty."""
        recorder = Recorder(2, 2, 1, 9)
        recorder.run(drain(3) + S(0, 2))
        self.assertEqual(recorder.history, (DEQ, NOTHING))

    def test_explained_after_every_call(self):
        """A history with drains, under way or ended, that is not explained; or items left that it does not leave."""
        met = collections.Counter()
        for seed in range(160):
            rng = random.Random(seed)
            recorder = Recorder(2, 2 + seed % 4, 3, 40)
            for _ in range(200):
                t = rng.randrange(4)
                busy = recorder.words[16 + 8 * t]
                recorder.call(explore.random_step(rng, t) if busy else ('e', t, 7) if t else explore.random_start(rng))
                self.assertTrue(explore.demand_3_long(im.items_left(recorder.words), recorder.history), (seed, recorder.history))
            met.update(reply[:2] for reply in recorder.replies if reply[0] == 'drained')
        for items in range(4):
            self.assertGreater(met['drained', items], 40, met)


class Buffers(unittest.TestCase):
    """Refusals 14 and 15, and what a buffer may be."""

    def test_14_comes_after_5(self):
        """A limit that is off by one, or that is looked at before the consumer."""
        for limit in (0, 65, 2**31, im.U32):
            self.assert_refused(14, opened(2, 2, 1, 9), start_drain, limit)
        for limit in (1, 64):
            words = opened(2, 2, 1, 9)
            self.assertEqual(start_drain(words, limit), OK)
            self.assertEqual(words[-130:], [limit] + [0] * 129)
            for other in (0, limit, 65):
                self.assert_refused(5, words, start_drain, other)
                self.assert_refused(5, words, im.start_dequeue)

    def assert_refused(self, number, words, call, *arguments):
        before = list(words)
        self.assertEqual((call(words, *arguments), words), (refused(number), before))

    def test_15_at_every_end(self):
        """A buffer too short by a word, or ending before the named one, that is taken where a drain ends in some phase; a refusal
        that changes a word; room for no item that is asked for."""
        ends = ends_of_drains()
        self.assertEqual({phase for phase, _ in ends}, {1, 2, 3, 7, 8})
        for (_, items), words in ends.items():
            for length, named in ((2 * items, 0), (2 * items + 3, 3), (2 * items + 3, 1)):
                self.assert_ends(words, items, length, named)
            for length, named in ((0, 1), (2, 3), (2 * items + 5, im.U32), *[(2 * items - 1, 0), (2 * items + 2, 3)] * (items > 0)):
                self.assert_15(words, length, named)

    def assert_ends(self, words, items, length, named):
        after, buffer = list(words), [MARK] * length
        reply = step(after, 0, buffer, named)
        self.assertEqual(reply[:2], ('drained', items))
        self.assertEqual(buffer[:named] + buffer[named + 2 * items :], [MARK] * (length - 2 * items))

    def assert_15(self, words, length, named):
        after, buffer = list(words), [MARK] * length
        self.assertEqual(step(after, 0, buffer, named), refused(15))
        self.assertEqual((after, buffer), (words, [MARK] * length))

    def test_15_then_the_end(self):
        """A drain that a refusal ends, or that loses its items by it, while a producer goes on."""
        recorder, buffer = three_in(Recorder), room(3)
        recorder.run(drain(64) + S(0, 9))
        self.assertEqual(recorder.run(S(0) + S(0) + lend(buffer)), going(10) + [refused(15)] + drained(3, 11))
        self.assertEqual(buffer, [1, 70, 2, 71, 3, 72])

    def test_15_comes_after_9(self):
        """A buffer that is looked at before the number of steps, or before a needed link."""
        for (phase, items), words in ends_of_drains().items():
            full = step_counts.with_steps(words, 0, MOST_STEPS)
            self.assertEqual(step(list(full), 0, [], 1), refused(9))
            self.assertEqual(step(list(full), 0, [], 1, engine=LooksAtTheBufferFirst), refused(15))
            if phase == 8:
                unlinked = list(words)
                unlinked[words[5] + (words[8] - 1) * 10 + 1] = 0
                self.assertEqual(step(unlinked, 0, [], 1), refused(9))

    def test_no_room_before_the_end(self):
        """A buffer that is looked at before the drain's end, or by a producer, a dequeue or one that answers empty."""
        recorder = three_in(Recorder)
        self.assertEqual(recorder.run(drain(3) + lend([], 9, named=im.U32)), [OK] + going(1, 9))
        early = three_in(opening(AsksForRoomEarly))
        self.assertEqual(early.run(drain(3) + lend([], 9, named=im.U32))[3:5], [refused(15)] * 2)
        recorder = Recorder(2, 2, 1, 9)
        none = [('s', 1, [], 1)]
        self.assertEqual(recorder.run(E(1, 7) + none * 3), started(1) + going(2, 3) + end(4))
        self.assertEqual(recorder.run(D + lend([], 3, named=1))[-1], ('item', 1, 7, 3))
        self.assertEqual(recorder.run(D + lend([], 2, named=1))[-1], ('empty', 2))


def ends_of_drains():
    """For each phase and number of items with which drains of random runs end, the words before that step."""
    found = {}
    for seed in range(60):
        rng, recorder = random.Random(seed), Recorder(2, 3, 3, (5, 6, 40)[seed % 3])  # with few starts it is empty soon
        for _ in range(300):
            t = rng.randrange(4)
            before = list(recorder.words)
            start = ('e', t, 7) if t else ('drain', rng.randint(1, 4))
            reply = recorder.call(('s', t, room(4), 0) if before[16 + 8 * t] else start)
            if reply[0] == 'drained':
                found.setdefault((before[16], reply[1]), before)
    return found


class AnyStore(unittest.TestCase):
    """Drains on words in range that no engine wrote, by what a dequeue does there."""

    def test_beside_a_dequeue(self):
        """A step of a drain that differs from that of a dequeue otherwise than the paper says."""
        rng, seen = random.Random(41), collections.Counter()
        while sum(seen.values()) < 14_000:
            words = random_store(rng)
            if im.drain_word(words, im.LIMIT):
                reply = self.check(rng, words)
                seen[words[16], *reply[: 2 if reply[0] == 'refused' else 1]] += 1
        for phase in range(1, 9):
            self.assertGreater(seen[phase, 'going'], 30, phase)
            self.assertGreater(seen[phase, 'refused', 9], 30, phase)
        for phase in (1, 2, 3, 7, 8):
            self.assertGreater(seen[phase, 'drained'], 30, phase)
            self.assertGreater(seen[phase, 'refused', 15], 20, phase)

    def check(self, rng, words):
        """One step, with what it must do worked out from a dequeue's step on the same words. Its reply."""
        area = len(words) - 130
        plain = words[:area] + [0] * 130
        answer = step(plain, 0)
        expected, left, handed = self.expected(words, answer, plain[:area])
        buffer, named = drain_stores.buffer(rng, len(handed) // 2)
        if expected[0] == 'drained' and len(buffer) < named + len(handed):
            expected, left, handed = refused(15), words, []
        after = list(buffer)
        if handed:
            after[named : named + len(handed)] = handed
        got = list(words), list(buffer)
        self.assertEqual((step(got[0], 0, got[1], named), *got), (expected, left, after), words)
        return expected

    def expected(self, words, answer, plain):
        """The reply, the words after it and the words handed over, where a dequeue gets this answer and leaves these words but
        for the area."""
        area = words[len(plain) :]
        limit, count = area[:2]
        phase, flag, steps = words[16], words[18], words[23] + 1
        if answer[0] == 'refused' or phase == 7 and count == limit:
            return refused(9), words, []
        ends = answer[0] == 'empty' or phase == 1 and plain[16] == 2 and count > 0
        if phase == 7:
            area[1] = count + 1
            area[2 + 2 * count : 4 + 2 * count] = words[21:23]
        if answer[0] == 'item':
            ends = area[1] == limit or flag == 1
            plain[16:24] = [1, 0, 0, 0, 0, 0, 0, steps]
        if ends:
            plain[16:24] = [0] * 8
            return ('drained', area[1], steps), plain + [0] * 130, area[2 : 2 + 2 * area[1]]
        if phase == 5 and plain[16] == 6:
            plain[18] = 1
        return ('going', steps), plain + area, []


class OneItem(unittest.TestCase):
    """A drain of one item beside a dequeue."""

    def test_limit_1(self):
        """A drain of limit 1 that takes other steps than a dequeue, gives another item or leaves other words."""
        met = collections.Counter()
        for seed in range(60):
            rng, recorders = random.Random(seed), [Recorder(2, 3, 3, 40) for _ in range(2)]
            for _ in range(200):
                t = rng.choice((0, 0, 0, 1, 2, 3))
                busy, buffer = recorders[0].words[16 + 8 * t], room(1)
                starts = [('e', t, rng.randrange(99))] * 2 if t else D + drain(1)
                calls = [('s', t), ('s', t, buffer, 0)] if busy else starts
                reply, other = (recorder.call(call) for recorder, call in zip(recorders, calls))
                if other[0] == 'drained':
                    other = ('item', *buffer, other[2]) if other[1] else ('empty', other[2])
                self.assertEqual(reply, other)
                self.assertEqual(*map(without_drain, (recorder.words for recorder in recorders)))
                if recorders[0].words[16] != 8:  # there a drain has told its mark
                    self.assertEqual(*(recorder.history for recorder in recorders))
                met[reply[0]] += 1
        self.assertGreater(min(met['item'], met['empty']), 200)


def without_drain(words):
    """The words before the drain area, without the flag of a drain."""
    phase = words[16]
    return words[:18] + [0 if phase >= 6 else words[18]] + words[19:-130]


class AsManyDequeues(unittest.TestCase):
    """A drain beside dequeues, nobody else stepping."""

    def test_items(self):
        """A drain that gives other items than as many dequeues, or ends early: the front is set, and its limit not reached."""
        rng, met = random.Random(43), collections.Counter()
        for _ in range(400):
            recorder = Recorder(2, 5, 3, 60)
            for _ in range(rng.randrange(20, 150)):
                t = rng.choice((0, 1, 1, 2, 2, 3, 3))
                recorder.call(('s', t) if recorder.words[16 + 8 * t] else ('e', t, rng.randrange(99)) if t else ('d',))
            while recorder.words[16]:
                recorder.call(('s', 0))
            limit, other = rng.choice((1, 2, 3, 64)), Recorder(2, 5, 3, 60)
            other.words = list(recorder.words)
            given, _ = drain_whole(recorder, limit)
            replies = [dequeue_whole(other) for _ in range(max(1, len(given) // 2))]
            self.assertEqual([word for reply in replies if reply[0] == 'item' for word in reply[1:3]], given)
            met[len(given) // 2] += 1
        for items in range(4):
            self.assertGreater(met[items], 5, met)


# B, N, P, M, the limit, the accepted steps of the longest drain with these sizes, and its bound.
LONGEST = (
    (2, 2, 1, 6, 2, 13, 66),
    (2, 2, 2, 3, 3, 12, 78),
)


class Lengths(unittest.TestCase):
    """How long a drain lasts. The explorations hold every drain they meet to its bound."""

    def test_longest(self):
        """A drain past its bound, or a search that finds a longer one than is written here."""
        for B, N, P, M, limit, steps, bound in LONGEST:
            self.assertEqual(longest_drain.longest(B, N, P, M, limit), steps)
            self.assertEqual(most_drain_steps(B, N, limit), bound)

    def test_bound(self):
        """A bound that is not the paper's: that of a dequeue, and for each item more N x (B + 1) + B + 4."""
        self.assertEqual([most_drain_steps(2, 2, limit) for limit in (0, 1, 2, 64)], [54, 54, 66, 810])
        self.assertEqual(most_drain_steps(64, 64, 64), 8_675_745 + 63 * 4_228)
        self.assertLess(most_drain_steps(64, 64, 64), MOST_STEPS)


if __name__ == '__main__':
    unittest.main()
