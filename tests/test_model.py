"""The model against document 01 and U1 to U3 and U8 of document 02: runs, claims, records that are let go, numbers of
steps, starts, refusals, damaged stores, and the four traps. test_drain.py has U5, test_fold.py U6, test_room.py how long a
store lasts."""

import collections
import random
import unittest

import claim_stores
import drain_stores
import intake_model as im
import leaving_stores
import step_counts
from intake_model import (
    GOING, MOST_STEPS, Intake, Recorder, needed_words, open_store, start_dequeue, start_drain, start_enqueue, step,
)

D = [('d',)]
OK = ('ok',)


def E(t, v):
    return [('e', t, v)]


def S(t, times=1):
    return [('s', t)] * times


def refused(number):
    return ('refused', number)


def started(call):
    """The reply of a start enqueue, which is the call's first step."""
    return [('ok', call, 1)]


def going(first, last=None):
    """The replies of a call's steps from one to another, all going; of one step if no other is given."""
    return [('going', k) for k in range(first, (last or first) + 1)]


def end(steps):
    return [('end', steps)]


def empty(steps):
    return [('empty', steps)]


def item(call, value, steps):
    return [('item', call, value, steps)]


def opened(B, N, P, M):
    """A store just opened."""
    words = [0] * needed_words(B, N, P)
    open_store(words, B, N, P, M)
    return words


def enqueue_whole(recorder, t, v, limit=50):
    """Run an enqueue to its end; the number of steps it took, or the refusal it met and on which step. The start is the
    first."""
    recorder.call(('e', t, v))
    for tried in range(2, limit + 1):
        reply = recorder.call(('s', t))
        if reply[0] == 'end':
            return reply[1]
        if reply[0] == 'refused':
            return (tried, reply[1])
    return None


def dequeue_whole(recorder, limit=50):
    """Run a dequeue to its answer."""
    recorder.call(('d',))
    for _ in range(limit):
        reply = recorder.call(('s', 0))
        if reply[0] != 'going':
            return reply
    return None


def enqueue_after_three(recorder, last):
    """Enqueues at positions 0 to 2, three dequeues, enqueues at positions 3 to the last."""
    for v in range(3):
        enqueue_whole(recorder, 1, v)
    for _ in range(3):
        dequeue_whole(recorder)
    for v in range(3, last + 1):
        enqueue_whole(recorder, 1, v)


class Runs(unittest.TestCase):
    """The runs to hold it to."""

    def test_printed_run(self):
        """A wrong phase order, a wrong empty answer, a lost item or a wrong number of steps in the shortest run."""
        recorder = Recorder(2, 2, 1, 9)
        self.assertEqual(recorder.opened, OK)
        replies = recorder.run(D + S(0, 2) + E(1, 7) + S(1, 3))
        self.assertEqual(replies, [OK] + going(1) + empty(2) + started(1) + going(2, 3) + end(4))
        self.assertEqual(recorder.run(D + S(0, 3)), [OK] + going(1, 2) + item(1, 7, 3))
        self.assertEqual(
            recorder.history,
            ((3, 0, 0, 0), (5, 0, 0, 0), (1, 1, 1, 7), (2, 1, 1, 7), (3, 0, 0, 0), (4, 0, 1, 7)),
        )

    def test_steps_of_enqueues(self):
        """A record linked ahead too early, too late or with a move of the tail record; a claim that overcommits."""
        recorder = Recorder(2, 2, 1, 9)
        enqueue_whole(recorder, 1, 0)
        steps = [enqueue_whole(recorder, 1, v) for v in range(1, 5)]
        self.assertEqual(steps, [6, 7, 5, (4, 8)])

    def test_late_set_behind_the_cursor(self):
        """A rescan that does not see the entry set at the head meanwhile."""
        self.assertEqual(late_set_run(Intake), going(3, 6) + item(1, 70, 7))

    def test_sizes(self):
        """A limit that is off by one, or a wrong size of the store."""
        for sizes in ((1, 2, 1, 1), (2, 65, 1, 1), (2, 2, 0, 1), (2, 2, 17, 1), (2, 2, 1, 0)):
            self.assertEqual(open_store([0] * 12_826, *sizes), refused(1), sizes)
        for sizes in ((65, 2, 1, 1), (2, 1, 1, 1), (2, 2, 1, 1_000_001)):
            self.assertEqual(open_store([0] * 20_000, *sizes), refused(1), sizes)
        self.assertEqual(needed_words(64, 64, 16), 12_826)
        self.assertEqual(open_store([0] * 12_826, 64, 64, 16, 1_000_000), OK)
        self.assertEqual(open_store([0] * 12_825, 64, 64, 16, 1_000_000), refused(2))

    def test_starts_are_counted(self):
        """A limit M on starts that is not kept once the first call has ended."""
        recorder = Recorder(2, 2, 1, 1)
        self.assertEqual(enqueue_whole(recorder, 1, 5), 4)
        self.assertEqual(recorder.call(('e', 1, 6)), refused(6))

    def test_open_writes_the_contents(self):
        """Dirt left by open, a wrong first word of the records, or a write past the store."""
        words = [9] * (needed_words(2, 2, 1) + 3)
        self.assertEqual(open_store(words, 2, 2, 1, 5), OK)
        record_0 = [1, 0, 0, 2] + [0] * 6
        contents = [2, 2, 1, 5, 16, 32, 0, 1, 1, 0, 0, 1, 0, 0, 0, 0]
        self.assertEqual(words, contents + [0] * 16 + record_0 + [0] * 10 + [0] * 130 + [9] * 3)

    def test_head_advances_with_its_item(self):
        """An item at the head that leaves the head position behind: the next dequeue then takes a step more."""
        recorder = Recorder(4, 2, 1, 9)
        for v in (70, 80):
            enqueue_whole(recorder, 1, v)
        self.assertEqual(recorder.run(D + S(0, 3)), [OK] + going(1, 2) + item(1, 70, 3))
        self.assertEqual(recorder.run(D + S(0, 3)), [OK] + going(1, 2) + item(2, 80, 3))
        self.assertEqual(recorder.run(D + S(0, 2)), [OK] + going(1) + empty(2))

    def test_handled_entry_at_the_head(self):
        """An item found past the head that is given twice, or a head that does not pass it later."""
        recorder = Recorder(4, 2, 2, 9)
        recorder.run(E(1, 70) + S(1, 2))
        enqueue_whole(recorder, 2, 80)
        self.assertEqual(recorder.run(D + S(0, 7)), [OK] + going(1, 6) + item(2, 80, 7))
        self.assertEqual(recorder.run(S(1)), end(4))
        self.assertEqual(recorder.run(D + S(0, 3)), [OK] + going(1, 2) + item(1, 70, 3))
        self.assertEqual(recorder.run(D + S(0, 3)), [OK] + going(1, 2) + empty(3))

    def test_rescan_begins_again_after_each_find(self):
        """A rescan that keeps the first set entry it meets: here 2 is found, then 1, then 0."""
        recorder = Recorder(4, 2, 3, 9)
        recorder.run(E(1, 70) + S(1, 2) + E(2, 80) + S(2, 2))
        enqueue_whole(recorder, 3, 90)
        self.assertEqual(recorder.run(D + S(0, 7)), [OK] + going(1, 7))
        self.assertEqual(recorder.run(S(2) + S(0)), going(4) + going(8))
        self.assertEqual(recorder.run(S(1) + S(0, 3)), end(4) + going(9, 10) + item(1, 70, 11))

    def test_producer_that_went_back_links_nothing_ahead(self):
        """A back flag that is not kept: position 1 is set after going back, with a record free."""
        recorder = Recorder(2, 3, 2, 9)
        enqueue_whole(recorder, 2, 0)
        recorder.run(E(1, 1))
        enqueue_whole(recorder, 2, 2)
        self.assertEqual(im.free_records(recorder.words), [2])
        self.assertEqual(recorder.run(S(1, 4)), going(2, 4) + end(5))

    def test_items_left_by_position(self):
        """Items left in record order instead of queue order: here record 0 comes after record 1."""
        recorder = Recorder(2, 2, 1, 9)
        enqueue_after_three(recorder, 5)
        self.assertEqual(im.items_left(recorder.words), [(4, 3), (5, 4), (6, 5)])


# Claiming the next one round (document 02, U1): wrong engines, then the runs.


class StartsAtTheLast(Intake):
    """A claim looks at the record claimed last first."""

    def next_record(self):
        last = self.w[im.LAST_CLAIMED] - 1
        return last if last in im.free_records(self.w) else super().next_record()


class StopsAtTheEnd(Intake):
    """A claim looks at the records after the one claimed last and no further."""

    def next_record(self):
        return min((r for r in im.free_records(self.w) if r >= self.w[im.LAST_CLAIMED]), default=None)


class LeavesWord11(Intake):
    """A claim does not write word 11."""

    def claim_one(self, r):
        last = self.w[im.LAST_CLAIMED]
        super().claim_one(r)
        self.w[im.LAST_CLAIMED] = last


class TakesOnePastTheLast(Intake):
    """A claim finds, where no record after the one claimed last is free, one more than there are."""

    def next_record(self):
        N, last = self.w[1], self.w[im.LAST_CLAIMED]
        return next((r for r in range(last, N + 1) if r == N or r in im.free_records(self.w)), None)


class Claims(unittest.TestCase):
    """Which record a claim takes. A run gives for each claim the record, None for none, and word 11 after it."""

    ONE_ROUND = [(1, 2), (2, 3), (3, 4), (0, 1), (None, 1), (None, 1)]
    GIVEN_BACK = [(1, 2), (2, 3)]

    def test_one_round(self):
        """A claim that takes a lower free record, that does not go past the end, or that finds none and writes word 11:
        record 0 is free again before record 2 is claimed, and after the fourth claim none is."""
        self.assertEqual(one_round_run(Intake), self.ONE_ROUND)

    def test_the_one_claimed_last_comes_last(self):
        """A claim that takes the record claimed last, given back since, before another one; or that never takes it."""
        self.assertEqual(given_back_run(Intake, 4, 0), self.GIVEN_BACK + [(3, 4)])
        self.assertEqual(given_back_run(Intake, 3, 2), self.GIVEN_BACK + [(0, 1)])
        self.assertEqual(given_back_run(Intake, 3, 0), self.GIVEN_BACK + [(2, 3)])

    def test_wrong_claims(self):
        """Runs too weak to see a claim that starts at the record claimed last, stops at the end, or leaves word 11."""
        self.assertEqual(given_back_run(StartsAtTheLast, 4, 0)[-1], (2, 3))
        self.assertEqual(given_back_run(StartsAtTheLast, 3, 2)[-1], (2, 3))
        self.assertEqual(one_round_run(StopsAtTheEnd)[3], (None, 4))
        self.assertEqual(given_back_run(StopsAtTheEnd, 3, 0)[-1], (None, 3))
        self.assertEqual(one_round_run(LeavesWord11)[0], (1, 1))

    def test_every_size(self):
        """Stores of which some number of records has none that shows a search to start at the record claimed last, to stop at
        the end, or to go past the last record."""
        for wrong in (StartsAtTheLast, StopsAtTheEnd, TakesOnePastTheLast):
            shown = {words[1] for words in claim_stores.every_size(random.Random(6)) if wrong(words).next_record() != im.next_free(words)}
            self.assertEqual(shown, set(range(2, 65)), wrong.__name__)

    def test_any_store(self):
        """A search that goes wrong from some record claimed last, or among some free ones. It must take the free record
        that the fewest steps upward lead to, modulo N."""
        rng, seen = random.Random(5), set()
        for words in claim_stores.small(rng) + claim_stores.large(rng, 2000):
            N, last = words[1], words[im.LAST_CLAIMED] - 1
            nearest = min(im.free_records(words), key=lambda r: (r - last - 1) % N, default=None)
            self.assertEqual(im.next_free(words), nearest)
            seen.add((N, last, nearest))
        for N in range(2, 5):
            self.assertEqual(sum(key[0] == N for key in seen), N * (N + 1))

    def test_no_reply_depends_on_the_record(self):
        """Replies by which two runs of the same calls differ, though their claims find a record at the same steps. Each
        run takes other free records; one claim in five finds none, the same ones in all runs."""
        other_words = 0
        for seed in range(60):
            draw = random.Random(seed)
            takes = (im.next_free, lowest, highest, lambda words: draw.choice(im.free_records(words)))
            (first, finds), *others = [any_record_run(take, seed) for take in takes]
            for recorder, found in others:
                self.assertEqual(found, finds)
                self.assertEqual(recorder.replies, first.replies)
                other_words += recorder.words != first.words
            self.assertEqual(set(finds), {True, False})
        self.assertGreater(other_words, 100)

    def test_same_calls_leave_the_same_words(self):
        """Dumps of two runs of the same calls that differ by what their stores held before open, or by their length."""
        size = needed_words(2, 5, 3)
        for seed in range(60):
            rng = random.Random(seed)
            lent = [[rng.getrandbits(32) for _ in range(size + more)] for more in (0, 1 + seed % 9)]
            recorders = [Recorder(2, 5, 3, 40, words=words) for words in lent]
            for recorder in recorders:
                random_calls(recorder, seed, 300)
            self.assertEqual(recorders[0].words, recorders[1].words[:size])


def lowest(words):
    return im.free_records(words)[0]


def highest(words):
    return im.free_records(words)[-1]


def any_record_run(take, seed):
    """Random calls on an engine whose claims take the free record that `take` says, though one in five finds none: the
    recorder, and for each claim whether it found a record."""
    draw, found = random.Random(seed), []

    class TakesAnyRecord(Intake):
        def next_record(self):
            found.append(draw.random() < 0.8 and bool(im.free_records(self.w)))
            return take(self.w) if found[-1] else None

    recorder = Recorder(2, 5, 3, 40, engine=TakesAnyRecord)
    random_calls(recorder, seed, 300)
    return recorder, found


class ClaimRecorder(Recorder):
    """Keeps for each claim the record that it took, None for none, and word 11 after it."""

    def __init__(self, *sizes, engine):
        super().__init__(*sizes, engine=engine)
        self.claims = []

    def call(self, call):
        producer = call[1] if call[0] == 's' else 0
        own = 16 + 8 * producer
        claims = producer and self.words[own] in (4, 10)
        reply = super().call(call)
        if claims:
            self.claims.append((self.words[own + im.CLAIMED] - 1 if reply[0] == 'going' else None, self.words[11]))
        return reply


def one_round_run(engine):
    """B = 2, N = 4. Record 0 is free again before position 3. A claim in phase 10 at each odd position, and one in
    phase 4 at position 10."""
    recorder = ClaimRecorder(2, 4, 1, 99, engine=engine)
    enqueue_after_three(recorder, 10)
    return recorder.claims


def given_back_run(engine, N, dequeues):
    """B = 2. Producer 1 in phase 4 and producer 2 in phase 10, both holding record 0, claim records 1 and 2. Producer 1
    links; producer 2 gives record 2 back. Producer 1 ends. After so many dequeues (two leave record 0 free) it
    enqueues at position 3, and claims."""
    recorder = ClaimRecorder(2, N, 2, 9, engine=engine)
    enqueue_whole(recorder, 1, 0)
    recorder.run(E(2, 1) + S(2, 2) + E(1, 2) + S(1, 2) + S(2) + S(1) + S(2) + S(1) + S(2) + S(1, 4))
    for _ in range(dequeues):
        dequeue_whole(recorder)
    enqueue_whole(recorder, 1, 3)
    return recorder.claims


def random_calls(recorder, seed, count):
    """Random steps and starts that do not look at the words; the replies."""
    rng = random.Random(seed)
    for _ in range(count):
        t = rng.randrange(recorder.words[2] + 1)
        start = ('d',) if t == 0 else ('e', t, rng.randrange(100))
        recorder.call(start if rng.random() < 0.2 else ('s', t))
    return recorder.replies


def late_set_run(engine):
    """B = 4. Producer 1 takes 0 and stops before phase 9. The dequeue steps twice. Producer 1 ends; producer 2
    enqueues and ends. The replies of five more steps."""
    recorder = Recorder(4, 2, 2, 9, engine=engine)
    recorder.run(E(1, 70) + S(1, 2) + D + S(0, 2) + S(1))
    enqueue_whole(recorder, 2, 80)
    return recorder.run(S(0, 5))


# Letting a drained record go (document 02, U2): wrong engines, then the runs.


class RepliesAtTheEnd(Intake):
    """Phase 7 replies its item at the record's end too; there is no phase 8."""

    def mark(self):
        reply = super().mark()
        return self.reply_item() if reply == GOING else reply


class MovesAtTheMark(Intake):
    """Phase 7 makes the move itself."""

    def mark(self):
        reply = super().mark()
        return self.let_go() if reply == GOING else reply


class KeepsTheRecord(Intake):
    """Phase 8 moves the head and does not retire the old record."""

    def let_go(self):
        left = self.w[im.HEAD_RECORD] - 1
        reply = super().let_go()
        self.put_part(left, im.USE, im.USE_LINKED)
        return reply


class GoesToTheFront(Intake):
    """Phase 8 goes to phase 1 and replies no item."""

    def let_go(self):
        self.leave_head()
        return self.to(1)


class ForgetsTheItem(Intake):
    """Phase 7 clears the item's words on its way to 8."""

    def mark(self):
        reply = super().mark()
        if reply == GOING:
            self.put(im.ITEM_CALL, 0)
            self.put(im.ITEM_VALUE, 0)
        return reply


class LeavesTheTailRecord(Intake):
    """Phase 7 goes to 8 at the record's end, whether or not the head record is the tail record."""

    def head_is_tail(self):
        return self.mine(im.PHASE) == 1 and super().head_is_tail()


LETTING_GO = (
    RepliesAtTheEnd, MovesAtTheMark, KeepsTheRecord, GoesToTheFront, ForgetsTheItem, LeavesTheTailRecord,
)


class LettingGo(unittest.TestCase):
    """The dequeue that takes the head record's last item leaves that record, if it is not the tail record."""

    def test_feeders_go_on(self):
        """A feeder that meets 8 although the dequeue that took the head record's last item has ended, and no other was
        started."""
        recorder = Recorder(2, 2, 3, 99)
        self.assertEqual(let_go_run(recorder.call), LET_GO)
        self.assertEqual(recorder.under_way(), [])

    def test_wrong_ways_to_let_go(self):
        """A run too weak to see a dequeue that leaves the drained record to the next one, that leaves it without a step
        of its own, that does not retire it, that goes on to the front, or that gives another item."""
        met, drained, went_on = LET_GO[0]
        stays = [refused(8)] * 6
        ends_early = drained[:3] + item(2, 1, 3) + [refused(7)]
        self.assertEqual(first_round(RepliesAtTheEnd), (met, ends_early, stays))
        self.assertEqual(first_round(MovesAtTheMark), (met, ends_early, went_on))
        self.assertEqual(first_round(KeepsTheRecord), (met, drained, stays))
        self.assertEqual(first_round(GoesToTheFront), (met, drained[:4] + going(4), went_on))
        self.assertEqual(first_round(ForgetsTheItem), (met, drained[:4] + item(0, 0, 4), went_on))

    def test_step_by_step(self):
        """A record retired before phase 8, words of found left in phase 8, or an item that is not kept for it."""
        recorder = Recorder(2, 2, 1, 9)
        for v in range(3):
            enqueue_whole(recorder, 1, 70 + v)
        self.assertEqual(dequeue_whole(recorder), ('item', 1, 70, 3))
        self.assertEqual(recorder.run(D + S(0, 3)), [OK] + going(1, 3))
        words = recorder.words
        self.assertEqual((words[im.HEAD_RECORD], words[im.HEAD_POSITION]), (1, 2))
        self.assertEqual(words[16:24], [8, 0, 0, 0, 0, 2, 71, 3])
        self.assertEqual((im.items_left(words), im.free_records(words)), ([(3, 72)], []))
        self.assertEqual(recorder.history[-1], (3, 0, 0, 0))
        self.assertEqual(recorder.call(('s', 0)), ('item', 2, 71, 4))
        self.assertEqual((words[im.HEAD_RECORD], words[im.HEAD_POSITION]), (2, 2))
        self.assertEqual(words[16:24], [0] * 8)
        self.assertEqual(im.free_records(words), [0])

    def test_the_tail_record_is_not_left(self):
        """A dequeue that goes to 8 where the head record is the tail record: it has no next, or one linked ahead."""
        for steps in (4, 6):
            recorder = Recorder(2, 2, 1, 9)
            enqueue_whole(recorder, 1, 70)
            recorder.run(E(1, 71) + S(1, steps - 1))
            self.assertEqual(recorder.run(D + S(0, 3)), [OK] + going(1, 2) + item(1, 70, 3))
            self.assertEqual(recorder.run(D + S(0, 3)), [OK] + going(1, 2) + item(2, 71, 3))
            self.assertEqual(recorder.run(D + S(0)), [OK] + empty(1))
        self.assertEqual(tail_record_run(LeavesTheTailRecord), [OK] + going(1, 3) + [refused(9)])
        self.assertEqual(tail_record_run(Intake), [OK] + going(1, 2) + item(2, 71, 3) + [refused(7)])

    def test_head_that_waits_at_the_end(self):
        """A phase 1 without its move: the record was the tail record when its last item was taken, and is no longer."""
        recorder = Recorder(2, 2, 1, 9)
        for v in (70, 71):
            enqueue_whole(recorder, 1, v)
        for call in (1, 2):
            self.assertEqual(recorder.run(D + S(0, 3))[-1], ('item', call, 69 + call, 3))
        self.assertEqual(enqueue_whole(recorder, 1, 72), 7)
        self.assertEqual((recorder.words[im.HEAD_POSITION], im.free_records(recorder.words)), (2, []))
        self.assertEqual(recorder.run(D + S(0)), [OK] + going(1))
        self.assertEqual(im.free_records(recorder.words), [0])
        self.assertEqual(recorder.run(S(0, 3)), going(2, 3) + item(3, 72, 4))

    def test_head_that_passes_to_the_end(self):
        """A move that is not made where phase 1 brings the head to the record's end: its last item was taken first."""
        recorder = Recorder(2, 2, 2, 9)
        recorder.run(E(1, 70) + S(1, 2))
        for v in (71, 72):
            enqueue_whole(recorder, 2, v)
        self.assertEqual(dequeue_whole(recorder), ('item', 2, 71, 7))
        self.assertEqual(recorder.run(S(1)), end(4))
        self.assertEqual(recorder.run(D + S(0, 3)), [OK] + going(1, 2) + item(1, 70, 3))
        self.assertEqual(recorder.run(D + S(0, 5)), [OK] + going(1, 4) + item(3, 72, 5))

    def test_any_store_in_7(self):
        """A mark that goes to 8 or not by another record than the head record, or where the head did not advance; that
        writes and is refused; that adds no step, or one too many; or that looks at something else."""
        seen = set()
        for words in leaving_stores.marking(random.Random(6)):
            tail_record, head, position = words[7:10]
            found, at, call, value, steps = words[19:24]
            found_end, head_end = (2 * place_of(words, number) if number else 0 for number in (found, head))
            after = list(words)
            reply = step(after, 0)
            full = steps == MOST_STEPS
            if not found_end - 2 <= at < found_end or at == position == words[3] or full:
                expected = (refused(9), words)
            else:
                changes = {leaving_stores.record_at(found) + 4 + 3 * (at % 2): 2, 9: position + (at == position)}
                late = at == position and position + 1 == head_end and head != tail_record
                consumer = [8, 0, 0, 0, 0, call, value, steps + 1] if late else [0] * 8
                changes |= {16 + k: word for k, word in enumerate(consumer)}
                expected = (('going', steps + 1) if late else ('item', call, value, steps + 1), changed(words, changes))
            self.assertEqual((reply, after), expected)
            seen.add((reply[0], at == position, position + 1 == head_end, head == tail_record, full))
        ends = {('going', True, True, False), ('item', True, True, True), ('item', True, False, False)}
        ends |= {('item', True, False, True), ('refused', True, False, True)}
        self.assertLessEqual({kind + (False,) for kind in ends}, seen)
        self.assertIn(('refused', True, True, False, True), seen)

    def test_any_store_in_8(self):
        """A move that follows no link, leaves the range, looks at the tail record or the head position, retires another
        record than the head record, or adds no step."""
        seen = set()
        for words in leaving_stores.leaving(random.Random(7)):
            head, (call, value, steps) = words[8], words[21:24]
            following = words[leaving_stores.record_at(head) + 1]
            first = 2 * (place_of(words, following) - 1) if following else None
            after = list(words)
            reply = step(after, 0)
            full = steps == MOST_STEPS
            if first is None or not 0 <= first <= words[3] or full:
                expected = (refused(9), words)
            else:
                changes = {8: following, 9: first, leaving_stores.record_at(head) + 3: 3}
                expected = (('item', call, value, steps + 1), changed(words, changes | {16 + k: 0 for k in range(8)}))
            self.assertEqual((reply, after), expected)
            seen.add((reply[0], 'full' if full else first))
        refusals = {('refused', first) for first in ('full', None, -2, 10, 1_000_002)}
        self.assertEqual(seen, refusals | {('item', first) for first in (0, 2, 8)})


# For each round of the run below what producer 3 met, the dequeue of the last item, and how producer 3 went on.
LET_GO = [
    (
        started(5 + 2 * k) + going(2, 3) + [refused(8)],
        [OK] + going(1, 3) + item(2 + 2 * k, 1 + 2 * k, 4),
        going(4, 8) + end(9),
    )
    for k in range(3)
]


def let_go_run(call, rounds=3):
    """B = 2, N = 2. Two producers fill both records. In each round producer 3 wants another record and meets 8. One
    item of the head record is taken, then its last, and producer 3 goes on to its end, with no other dequeue. The next
    round begins when its record is full too. `call` runs a call and gives its reply."""

    def run(calls):
        return [call(each) for each in calls]

    run(E(1, 0) + S(1, 3) + E(2, 1) + S(2, 5) + E(1, 2) + S(1, 6) + E(2, 3) + S(2, 4))
    replies = []
    for k in range(rounds):
        met = run(E(3, 4 + 2 * k) + S(3, 3))
        run(D + S(0, 3))
        replies.append((met, run(D + S(0, 4)), run(S(3, 6))))
        run(E(1, 5 + 2 * k) + S(1, 4))
    return replies


def first_round(engine):
    return let_go_run(Recorder(2, 2, 3, 99, engine=engine).call, 1)[0]


def tail_record_run(engine):
    """Two enqueues on a store whose second record is claimed and not linked, so that the head record has no next; the
    second of two dequeues, and one step more."""
    recorder = Recorder(2, 2, 1, 9, engine=engine)
    enqueue_whole(recorder, 1, 70)
    recorder.run(E(1, 71) + S(1, 4))
    dequeue_whole(recorder)
    return recorder.run(D + S(0, 4))


def place_of(words, number):
    return words[leaving_stores.record_at(number)]


def changed(words, changes):
    return [changes.get(k, word) for k, word in enumerate(words)]


# How many steps did that take (document 02, U3): wrong engines, then the runs.


class LeavesOutStays(Intake):
    """A step that stays in its phase is not counted."""

    stays = False

    def to(self, phase):
        self.stays = phase == self.mine(im.PHASE)
        return super().to(phase)

    def counted(self, reply, so_far):
        return super().counted(reply, so_far - self.stays)


class CountsEachPhase(Intake):
    """The number begins again with each phase."""

    def to(self, phase):
        self.moves = phase != self.mine(im.PHASE)
        return super().to(phase)

    def counted(self, reply, so_far):
        reply = super().counted(reply, so_far)
        if reply[0] == 'going' and self.moves:
            self.put(im.STEPS, 0)
        return reply


class LooksAtTheNumberFirst(Intake):
    """The last number is refused with 9 before the phase is looked at."""

    def run(self, t, room):
        im.need(self.w[16 + 8 * t + 7] < MOST_STEPS)
        return super().run(t, room)


class EndsAfterTheLast(Intake):
    """A step that ends its call is accepted with the last number."""

    def counted(self, reply, so_far):
        return super().counted(reply, so_far) if reply == GOING else reply + (so_far + 1,)


COUNTING = (LeavesOutStays, CountsEachPhase)

# (producer, phase, reply) of every accepted step
ACCEPTED_STEPS = {(True, phase, 'going') for phase in range(2, 11)} | {(True, phase, 'end') for phase in (9, 10, 11)}
ACCEPTED_STEPS |= {(False, phase, 'going') for phase in range(1, 9)} | {(False, phase, 'empty') for phase in (1, 2, 3)}
ACCEPTED_STEPS |= {(False, phase, 'item') for phase in (7, 8)}
ACCEPTED_STEPS |= {(False, phase, 'drained') for phase in (1, 2, 3, 7, 8)}
LENT = ([0] * 128, 0)  # a buffer with room for every drain


class Counting(unittest.TestCase):
    """The number of accepted steps of a call."""

    def test_each_call_from_one(self):
        """A number that goes on from the thread's last call, or that one thread's steps add to another's."""
        recorder = Recorder(2, 2, 1, 9)
        self.assertEqual(recorder.run(D + S(0)), [OK] + going(1))
        for call, steps in enumerate((4, 6, 7, 5), 1):
            self.assertEqual(recorder.run(E(1, 0) + S(1, steps - 1)), started(call) + going(2, steps - 1) + end(steps))
        self.assertEqual(recorder.run(S(0, 2)), going(2, 3))

    def test_steps_that_stay(self):
        """A step that stays in its phase and is not counted: in 3 and 5 of a dequeue over a record's end, in 5 of each
        entry, in 7 of an enqueue that goes back over two records."""
        self.assertEqual(scan_run(Intake), (11, ('item', 4, 4, 15), ('empty', 10)))
        self.assertEqual(back_run(Intake), going(2, 5) + end(6))
        self.assertEqual(scan_run(LeavesOutStays), (11, ('item', 4, 4, 11), ('empty', 9)))
        self.assertEqual(back_run(LeavesOutStays), going(2) + going(2, 4) + end(5))

    def test_each_phase(self):
        """A number that begins again when the phase changes, in a run too short to tell."""
        self.assertEqual(scan_run(CountsEachPhase)[1:], (('item', 4, 4, 1), ('empty', 1)))

    def test_refused_steps(self):
        """A step refused with 3, 4, 7 or 8 that is counted, for its own thread or another."""
        recorder = Recorder(2, 2, 1, 9)
        self.assertEqual(recorder.run(S(0) + S(1, 2)), [refused(7)] * 3)
        for v, steps in enumerate((4, 6, 7, 5)):
            self.assertEqual(enqueue_whole(recorder, 1, v), steps)
        self.assertEqual(recorder.run(E(1, 4) + S(1, 4)), started(5) + going(2, 3) + [refused(8)] * 2)
        self.assertEqual(recorder.run(S(2) + S(0) + S(1)), [refused(4), refused(7), refused(8)])
        self.assertEqual((dequeue_whole(recorder), dequeue_whole(recorder)), (('item', 1, 0, 3), ('item', 2, 1, 4)))
        recorder.words[12] = 1
        self.assertEqual(recorder.run(S(1, 2)), [refused(3)] * 2)
        recorder.words[12] = 0
        self.assertEqual(recorder.run(S(1, 6)), going(4, 8) + end(9))
        self.assertEqual(recorder.run(S(1) + E(1, 5) + S(1)), [refused(7)] + started(6) + going(2))

    def test_the_last_numbers(self):
        """A number that leaves its range, or a step refused before it does: in every phase, with every reply."""
        stores = accepted_steps()
        self.assertEqual(set(stores), ACCEPTED_STEPS)
        for (_, _, kind), (words, t) in stores.items():
            self.assertEqual(self.steps_on(words, t, MOST_STEPS - 1)[-1], MOST_STEPS)
            self.assertEqual(self.steps_on(words, t, MOST_STEPS), refused(9))
            self.assertEqual(self.steps_on(words, t, MOST_STEPS + 1), refused(3))
            ends = step(step_counts.with_steps(words, t, MOST_STEPS), t, *LENT, engine=EndsAfterTheLast)
            self.assertEqual(ends[0], 'refused' if kind == 'going' else kind)

    def test_8_comes_before_9(self):
        """A claim with the last number that meets 9 with no record free, or 8 with one free."""
        recorder = Recorder(2, 2, 1, 9)
        for v in range(4):
            enqueue_whole(recorder, 1, v)
        self.assertEqual(enqueue_whole(recorder, 1, 4), (4, 8))
        dry = list(recorder.words)
        for steps, number in ((0, 8), (MOST_STEPS - 1, 8), (MOST_STEPS, 8), (MOST_STEPS + 1, 3)):
            self.assertEqual(self.steps_on(dry, 1, steps), refused(number))
        first = step(step_counts.with_steps(dry, 1, MOST_STEPS), 1, engine=LooksAtTheNumberFirst)
        self.assertEqual(first, refused(9))
        dequeue_whole(recorder), dequeue_whole(recorder)
        self.assertEqual(self.steps_on(recorder.words, 1, MOST_STEPS), refused(9))
        self.assertEqual(self.steps_on(recorder.words, 1, 3), ('going', 4))

    def test_any_store(self):
        """A reply that carries another number than the stored one plus one, or a rule that looks at it, on stores that no
        engine wrote."""
        rng, seen = random.Random(9), set()
        for _ in range(4000):
            words = random_store(rng)
            for t in range(words[2] + 1):
                if words[16 + 8 * t]:
                    steps = rng.choice((0, 1, rng.randrange(MOST_STEPS), MOST_STEPS - 1, MOST_STEPS))
                    seen.add((t > 0, words[16 + 8 * t], self.steps_on(words, t, steps)[0]))
        self.assertLessEqual(ACCEPTED_STEPS, seen)

    def steps_on(self, words, t, steps):
        """The reply of a step with this stored number. With the number 0 it does the same but for the number; where it is
        refused then, it is refused with this one too."""
        first, after = step_counts.with_steps(words, t, 0), step_counts.with_steps(words, t, steps)
        before = list(after)
        plain, reply = step(first, t, *LENT), step(after, t, *LENT)
        if steps > MOST_STEPS:
            expected = refused(3), before
        elif plain[0] == 'refused':
            expected = plain, before
        elif steps == MOST_STEPS:
            expected = refused(9), before
        else:
            self.assertEqual(plain[-1], 1)
            kept = steps + 1 if plain[0] == 'going' else 0
            expected = plain[:-1] + (steps + 1,), step_counts.with_steps(first, t, kept)
        self.assertEqual((reply, after), expected)
        return reply


def scan_run(engine):
    """B = 2. Producers 1 to 3 take positions 0 to 2 and stop; producer 4 enqueues at position 3. The steps of that, and
    the answers of two dequeues."""
    recorder = Recorder(2, 3, 4, 9, engine=engine)
    for t in (1, 2, 3):
        recorder.run(E(t, t))
    return enqueue_whole(recorder, 4, 4), dequeue_whole(recorder), dequeue_whole(recorder)


def back_run(engine):
    """B = 2. Producer 1 takes position 0 and stops; producer 2 enqueues at positions 1 to 4, in three records. What
    producer 1 then replies: it loads the third record and goes back over two."""
    recorder = Recorder(2, 3, 2, 9, engine=engine)
    recorder.run(E(1, 0))
    for v in range(1, 5):
        enqueue_whole(recorder, 2, v)
    return recorder.run(S(1, 5))


def accepted_steps():
    """For every (producer, phase, reply) of random runs a store on which such a step is accepted, and its thread."""
    stores = {}
    for seed in range(60):
        rng, recorder = random.Random(seed), Recorder(2, 2 + seed % 3, 3, (5, 6, 40)[seed // 3 % 3])  # with few starts it is empty soon
        for _ in range(300):
            t = rng.randrange(4)
            before = list(recorder.words)
            start = ('e', t, 7) if t else rng.choice((('d',), ('drain', rng.randint(1, 3))))
            reply = recorder.call(('s', t, *LENT) if before[16 + 8 * t] else start)
            if before[16 + 8 * t] and reply[0] != 'refused':
                stores.setdefault((t > 0, before[16 + 8 * t], reply[0]), (before, t))
    return stores


# Starting takes the place (document 02, U8): wrong engines, then the runs.


class TakesNothing(Intake):
    """A start leaves the producer in phase 1, and takes no position."""

    def take(self):
        self.put(im.PHASE, 1)


class LeavesTail(Intake):
    """A start takes position tail, and tail stays."""

    def take(self):
        super().take()
        self.w[im.TAIL] -= 1


class TakesTheNext(Intake):
    """A start takes the position that tail grows to."""

    def take(self):
        super().take()
        self.put(im.POSITION, self.w[im.TAIL])


class CountsFromZero(Intake):
    """The take is not counted as a step."""

    def begin(self, t, v):
        reply = super().begin(t, v)
        self.put(im.STEPS, 0)
        return reply[:2] + (0,)


class LoadsToo(Intake):
    """A start makes the first load as well."""

    def take(self):
        super().take()
        self.load()


STARTING = (TakesNothing, LeavesTail, TakesTheNext, CountsFromZero, LoadsToo)


class Starting(unittest.TestCase):
    """A start of an enqueue takes its position, and is the call's first step."""

    def test_word_by_word(self):
        """A start that writes another word, or another number into one of these: starts, tail, and phase, call number, value,
        position and steps of its thread. Producers 2 and 1 start on a store on which three enqueues have started."""
        recorder = Recorder(2, 3, 3, 9)
        for v in (70, 71):
            enqueue_whole(recorder, 1, v)
        recorder.run(E(3, 72) + S(3, 2) + D + S(0, 2))
        for t, v, position in ((2, 2**32 - 1, 3), (1, 0, 4)):
            before = list(recorder.words)
            self.assertEqual(recorder.run(E(t, v)), [('ok', position + 1, 1)])
            changes = {6: position + 1, 10: position + 1}
            changes |= {16 + 8 * t + k: word for k, word in enumerate([2, position + 1, v, position, 0, 0, 0, 1])}
            self.assertEqual(recorder.words, changed(before, changes))

    def test_positions_by_starts(self):
        """Positions in the order of first steps, and not of starts: producer 2 starts first and steps last. Its item comes out first."""
        recorder = Recorder(4, 2, 2, 9)
        self.assertEqual(recorder.run(E(2, 80) + E(1, 70)), started(1) + started(2))
        self.assertEqual(recorder.run(S(1, 5)), going(2, 5) + end(6))
        self.assertEqual(recorder.run(S(2, 3)), going(2, 3) + end(4))
        self.assertEqual([dequeue_whole(recorder) for _ in range(2)], item(1, 80, 3) + item(2, 70, 3))

    def test_forgotten_steps(self):
        """A start without a step that takes no position: a dequeue reads tail and scans, and answers empty on its third step."""
        recorder = Recorder(4, 2, 1, 9)
        self.assertEqual(recorder.run(E(1, 7) + D + S(0, 3)), started(1) + [OK] + going(1, 2) + empty(3))

    def test_any_store(self):
        """A start that looks at another word, or in another order, or writes otherwise, on stores that no engine wrote."""
        rng, seen = random.Random(44), collections.Counter()
        for _ in range(6000):
            words = random_store(rng)
            (M, tail, starts), v = (words[k] for k in (3, 6, 10)), rng.getrandbits(32)
            for t in range(words[2] + 2):
                after, own = list(words), 16 + 8 * t
                reply = start_enqueue(after, t, v)
                if t == 0 or t > words[2]:
                    expected = refused(4), words
                elif words[own]:
                    expected = refused(5), words
                elif starts == M:
                    expected = refused(6), words
                elif tail == M:
                    expected = refused(9), words
                else:
                    new = dict(enumerate([2, starts + 1, v, tail, 0, 0, 0, 1], own)) | {6: tail + 1, 10: starts + 1}
                    expected = ('ok', starts + 1, 1), changed(words, new)
                self.assertEqual((reply, after), expected)
                seen[reply if reply[0] == 'refused' else ('ok', tail < starts, tail == starts)] += 1
                seen['both'] += reply == refused(6) and tail == M
        for known in (*map(refused, (4, 5, 6, 9)), ('ok', True, False), ('ok', False, True), ('ok', False, False), 'both'):
            self.assertGreater(seen[known], 30, seen)

    def test_tail_and_numbers(self):
        """A store of the model on which tail is not starts, or a call's number not its position plus one."""
        under_way = 0
        for seed in range(40):
            recorder = Recorder(2, 3, 3, 40)
            random_calls(recorder, seed, 300)
            words = recorder.words
            self.assertEqual(words[6], words[10])
            for own in range(24, 48, 8):
                if words[own]:
                    self.assertEqual(words[own + 1], words[own + 3] + 1)
                    under_way += 1
        self.assertGreater(under_way, 40)

    def test_wrong_starts(self):
        """Runs too weak to see a start that takes nothing, takes wrongly, is not counted or does more."""
        right = starts_run(Intake)
        self.assertEqual(right, (started(1) + started(2), going(2, 3) + end(4), ('item', 1, 70, 3)))
        seen = {engine.__name__: starts_run(engine) for engine in STARTING}
        self.assertEqual(seen['TakesNothing'], (started(1) + [refused(3)], [refused(3)] * 3, refused(3)))
        self.assertEqual(seen['LeavesTail'][2], ('item', 1, 70, 3))
        self.assertEqual(seen['TakesTheNext'][1], going(2, 4))
        self.assertEqual(seen['CountsFromZero'][:2], ([('ok', 1, 0), ('ok', 2, 0)], going(1, 2) + end(3)))
        self.assertEqual(seen['LoadsToo'][1], going(2) + end(3) + [refused(7)])


def starts_run(engine):
    """B = 4. Producers 1 and 2 start; the replies of that, of producer 1's three steps, and the answer of a dequeue."""
    recorder = Recorder(4, 2, 2, 9, engine=engine)
    starts, steps = recorder.run(E(1, 70) + E(2, 80)), recorder.run(S(1, 3))
    return starts, steps, dequeue_whole(recorder)


# Traps on the way: wrong engines.


class RescansPastTheHead(Intake):
    """The rescan begins after the head."""

    def cursor_to_head(self):
        self.cursor_at(self.w[im.HEAD_RECORD] - 1, self.w[im.HEAD_POSITION] + 1)


class StopsTwoShort(Intake):
    """The rescan leaves out the position before found."""

    def rescan(self):
        if self.mine(im.CURSOR_POSITION) + 1 >= self.mine(im.FOUND_POSITION):
            return self.to(6)
        return super().rescan()


class ShiftsOnlyAfterOwnLink(Intake):
    """The tail record moves only after one's own link."""

    def look(self):
        return self.to(2 if self.part(self.mine(im.HELD) - 1, im.NEXT) else 4)

    def link(self):
        linked_by_another = self.part(self.mine(im.HELD) - 1, im.NEXT)
        super().link()
        return self.to(2 if linked_by_another else 6)


class ReadsTheHeadFirst(Intake):
    """The head entry is read before the end of the record is seen."""

    def front(self):
        self.entry(self.w[im.HEAD_RECORD] - 1, self.w[im.HEAD_POSITION])
        return super().front()


class ReusesHeldRecords(Intake):
    """A retired record is free even while a producer holds it."""

    def next_record(self):
        unused = [r for r in range(self.N) if self.part(r, im.USE) in (im.USE_FREE, im.USE_RETIRED)]
        return im.first_after_last(self.w, unused)


TRAPS = (RescansPastTheHead, StopsTwoShort, ShiftsOnlyAfterOwnLink, ReadsTheHeadFirst, ReusesHeldRecords)


class Traps(unittest.TestCase):
    """Each trap of document 01 as a wrong engine: the run that tells it from the right one."""

    def test_rescan_past_the_head(self):
        """A run too weak to see a rescan that leaves out the head."""
        self.assertEqual(late_set_run(RescansPastTheHead)[-1], ('item', 2, 80, 7))

    def test_rescan_two_short(self):
        """A run too weak to see a rescan that stops two short of found."""
        self.assertEqual(late_set_run(StopsTwoShort)[-1], ('item', 2, 80, 7))

    def test_stopped_linker_stalls_nobody(self):
        """A tail record that only its linker moves: here the linker is stopped between phases 5 and 6."""
        self.assertEqual(stopped_linker_run(Intake), 8)
        self.assertIsNone(stopped_linker_run(ShiftsOnlyAfterOwnLink))

    def test_head_at_its_records_end(self):
        """A front that reads an entry past the head record."""
        self.assertEqual(drained_record_run(Intake), item(1, 0, 3) + item(2, 1, 3) + empty(1))
        self.assertEqual(drained_record_run(ReadsTheHeadFirst)[-1], refused(9))

    def test_held_record_is_not_reused(self):
        """A record claimed anew under a stopped producer that goes on to shift from it."""
        self.assertEqual(stopped_holder_run(Intake), ((4, 8), ('going', 4)))
        self.assertEqual(stopped_holder_run(ReusesHeldRecords), (9, refused(9)))


def stopped_linker_run(engine):
    """Producer 1 stops at position 1, so that nobody links ahead. Producer 2 links for position 2 and stops before
    phase 6. The steps of producer 3 at position 3."""
    recorder = Recorder(2, 2, 3, 9, engine=engine)
    enqueue_whole(recorder, 3, 0)
    recorder.run(E(1, 1) + S(1, 2) + E(2, 2) + S(2, 4))
    return enqueue_whole(recorder, 3, 3)


def drained_record_run(engine):
    """Two enqueues and three dequeues with B = 2."""
    recorder = Recorder(2, 2, 1, 9, engine=engine)
    for v in range(2):
        enqueue_whole(recorder, 1, v)
    return [dequeue_whole(recorder) for _ in range(3)]


def stopped_holder_run(engine):
    """Producer 1 takes 2 and stops before phase 6 with record 0 held. Producer 2 goes on; two dequeues retire
    record 0. Producer 2 wants a third place; then producer 1 steps."""
    recorder = Recorder(2, 2, 2, 9, engine=engine)
    for v in range(2):
        enqueue_whole(recorder, 2, v)
    recorder.run(E(1, 2) + S(1, 2))
    enqueue_whole(recorder, 2, 3)
    for _ in range(2):
        dequeue_whole(recorder)
    return enqueue_whole(recorder, 2, 4), recorder.call(('s', 1))


EACH_CALL = ((start_enqueue, (1, 5)), (start_dequeue, ()), (start_drain, (1,)), (step, (0,)))


class Refusals(unittest.TestCase):
    """Each refusal where the table has it, in the table's order, with the words unchanged."""

    def assert_refused(self, number, words, call, *arguments):
        before = list(words)
        self.assertEqual(call(words, *arguments), refused(number))
        self.assertEqual(words, before)

    def test_1_comes_before_2(self):
        """An open that looks at the length before the sizes."""
        self.assert_refused(1, [], open_store, 1, 2, 1, 1)
        self.assert_refused(2, [], open_store, 2, 2, 1, 1)

    def test_2_short_stores(self):
        """A store read past its end."""
        words = opened(2, 3, 2, 4)
        for length in (0, 1, 15, 16, 40, len(words) - 1):
            for call, arguments in EACH_CALL:
                self.assert_refused(2, words[:length], call, *arguments)

    def test_3_sizes_come_between_the_halves_of_2(self):
        """A store whose sizes are out of limits taken for one that is short."""
        for k in range(4):
            words = opened(2, 3, 2, 4)[:16]
            words[k] = 0
            self.assert_refused(3, words, step, 0)
            self.assert_refused(2, words[:15], step, 0)

    def test_3_store_before_any_open(self):
        """A store of zeros taken for an open one."""
        for call, arguments in EACH_CALL:
            self.assert_refused(3, [0] * 12_826, call, *arguments)

    def test_3_limits_of_each_word_of_an_idle_store(self):
        """A range that is off by one, or a word that is not looked at."""
        words = opened(2, 3, 1, 4)
        limits = {4: (16, 16), 5: (32, 32), 6: (0, 4), 7: (1, 3), 8: (1, 3), 9: (0, 4), 10: (0, 4)}
        limits |= {11: (1, 3)} | {k: (0, 0) for k in range(12, 16)}
        limits |= {16: (0, 8), 24: (0, 11)} | {k: (0, 0) for k in (*range(17, 24), *range(25, 32))}
        for r in (32, 42, 52):
            limits |= {r: (0, 500_002), r + 1: (0, 3), r + 2: (0, 3), r + 3: (0, 3)}
            for entry in (r + 4, r + 7):
                limits |= {entry: (0, 2), entry + 1: (0, 4), entry + 2: (0, 2**32 - 1)}
        limits |= {k: (0, 0) for k in range(62, 62 + 130)}
        self.assertEqual(set(limits), set(range(4, len(words))))
        self.assert_limits(words, limits)

    def test_3_limits_of_the_drain_area(self):
        """A limit above 64, a count above the limit, a pair out of its range, or one not in use that is not zero."""
        words, top = opened(2, 3, 1, 4), 2**32 - 1
        words[16], area = 1, 62
        for limit, count in ((0, 0), (1, 0), (1, 1), (3, 2), (64, 63), (64, 64)):
            words[area : area + 2] = limit, count
            words[area + 2 :] = [3, 7] * count + [0] * 2 * (64 - count)
            limits = {area: (count, 64), area + 1: (count, limit)}
            for k in range(64):
                limits |= {area + 2 + 2 * k: (0, 4 if k < count else 0), area + 3 + 2 * k: (0, top if k < count else 0)}
            self.assert_limits(words, limits)

    def test_3_limits_of_thread_words_by_phase(self):
        """A thread word not in use that is let through, or one in use that is not."""
        top, steps = 2**32 - 1, 100_000_000
        for phase in (2, 3, 4, 6, 7, 8, 9):
            self.assert_thread_limits(1, phase, [4, top, 4, 3, 0, 1, steps])
        self.assert_thread_limits(1, 5, [4, top, 4, 3, 3, 1, steps])
        self.assert_thread_limits(1, 10, [4, top, 4, 3, 0, 0, steps])
        self.assert_thread_limits(1, 11, [4, top, 4, 3, 3, 0, steps])
        for phase in (1, 2):
            self.assert_thread_limits(0, phase, [0, 0, 0, 0, 0, 0, steps])
        for phase in (3, 4):
            self.assert_thread_limits(0, phase, [3, 4, 0, 0, 0, 0, steps])
        self.assert_thread_limits(0, 5, [3, 4, 3, 4, 0, 0, steps])
        self.assert_thread_limits(0, 6, [0, 1, 3, 4, 0, 0, steps])
        self.assert_thread_limits(0, 7, [0, 1, 3, 4, 4, top, steps])
        self.assert_thread_limits(0, 8, [0, 1, 0, 0, 4, top, steps])

    def test_3_phase_1_of_a_producer(self):
        """A producer's phase 1 that is let through, by a start or a step of any thread: with the words that it had before U8, with
        those of phase 2, and with none."""
        for own in (24, 32):
            for rest in ([1, 7, 0, 0, 0, 0, 0], [1, 7, 0, 0, 0, 0, 1], [1, 7, 0, 2, 0, 0, 1], [0] * 7):
                for phase in (1, 2):
                    words = opened(2, 3, 2, 4)
                    words[own : own + 8] = [phase, *rest]
                    self.assertEqual(im.in_range(words), phase == 2)
                    for call in [('d',), ('drain', 2)] + [(kind, t) + (7,) * (kind == 'e') for kind in 'es' for t in range(4)]:
                        after = list(words)
                        reply = im.do(after, call)
                        self.assertEqual(reply == refused(3), phase == 1, call)
                        self.assertTrue(phase == 2 or after == words)

    def assert_thread_limits(self, t, phase, tops):
        words = opened(2, 3, 1, 4)
        own = 16 + 8 * t
        words[own] = phase
        self.assert_limits(words, {own + 1 + k: (0, top) for k, top in enumerate(tops)})

    def assert_limits(self, words, limits):
        for k, (low, high) in limits.items():
            for word in (w for w in {low - 1, low, high, high + 1} if 0 <= w < 2**32):
                damaged = words[:k] + [word] + words[k + 1 :]
                self.assertEqual(im.in_range(damaged), low <= word <= high, (k, word))
                if not low <= word <= high:
                    self.assert_refused(3, damaged, step, 0)

    def test_4_no_such_thread(self):
        """A thread past the producers, or the consumer taken for one of them."""
        words = opened(2, 2, 2, 4)
        for t in (0, 3, 17, 2**32 - 1):
            self.assert_refused(4, words, start_enqueue, t, 5)
        for t in (3, 17, 2**32 - 1):
            self.assert_refused(4, words, step, t)

    def test_5_comes_before_6(self):
        """A second start of a busy thread, and the order of the two checks."""
        words = opened(2, 2, 2, 1)
        self.assertEqual(start_enqueue(words, 1, 5), ('ok', 1, 1))
        self.assert_refused(5, words, start_enqueue, 1, 5)
        self.assert_refused(6, words, start_enqueue, 2, 5)
        self.assertEqual(start_dequeue(words), OK)
        self.assert_refused(5, words, start_dequeue)

    def test_9_comes_after_6(self):
        """A tail that a start takes past M; and 9 where no start is left, where the thread is busy, where there is no such producer
        or where a word is out of range."""
        words = opened(2, 2, 2, 4)
        words[6] = 4
        for starts in (0, 1, 3):
            words[10] = starts
            self.assert_refused(9, words, start_enqueue, 1, 5)
        words[6], words[10] = 3, 4
        self.assert_refused(6, words, start_enqueue, 1, 5)
        words[6] = 4
        self.assert_refused(6, words, start_enqueue, 1, 5)
        words[32:40] = [2, 1, 7, 0, 0, 0, 0, 1]
        for starts in (3, 4):
            words[10] = starts
            self.assert_refused(5, words, start_enqueue, 2, 5)
            self.assert_refused(4, words, start_enqueue, 3, 5)
        self.assertEqual(start_dequeue(list(words)), OK)
        words[6] = 5
        self.assert_refused(3, words, start_enqueue, 1, 5)

    def test_7_idle_thread(self):
        """A step of a thread that has no call."""
        words = opened(2, 2, 2, 1)
        for t in range(3):
            self.assert_refused(7, words, step, t)

    def test_8_then_going_once_a_record_is_free(self):
        """A claim that stays refused after a record has been retired, or is accepted before."""
        recorder = Recorder(2, 2, 1, 9)
        for v in range(4):
            enqueue_whole(recorder, 1, v)
        self.assertEqual(enqueue_whole(recorder, 1, 4), (4, 8))
        self.assertEqual(dequeue_whole(recorder)[1], 1)
        self.assertEqual(recorder.run(S(1) + D + S(0, 3) + S(1)), [refused(8), OK] + going(1, 3) + [refused(8)])
        self.assertEqual(recorder.run(S(0) + S(1, 6)), item(2, 1, 4) + going(4, 8) + end(9))

    def test_9_needed_link_is_none(self):
        """A link followed though it is none."""
        words = opened(2, 2, 1, 4)
        words[24:32] = [3, 1, 5, 2, 0, 0, 0, 0]
        self.assert_refused(9, words, step, 1)

    def test_9_index_leaves_the_record(self):
        """An entry written outside the held record."""
        for position in (2, 3, 4):
            words = opened(2, 2, 1, 4)
            words[24:32] = [8, 1, 5, position, 1, 0, 0, 0]
            self.assert_refused(9, words, step, 1)

    def test_9_number_leaves_its_range(self):
        """A place that grows past its range."""
        words = opened(2, 2, 1, 4)
        words[24:32] = [5, 1, 5, 2, 1, 2, 0, 0]
        words[32] = 500_002
        self.assert_refused(9, words, step, 1)
        words[32] = 500_001
        self.assertEqual(step(words, 1), ('going', 1))


class Damage(unittest.TestCase):
    """Stores that the engine did not write."""

    CAN_MEET_9 = {('producer', k) for k in (3, 5, 6, 7, 8, 9, 11)} | {('consumer', k) for k in range(1, 9)}
    ALL_PHASES = CAN_MEET_9 | {('producer', k) for k in (2, 4, 10)}
    CAN_MEET_9 |= {('start', 0)}

    def check(self, words, call):
        """No call raises; a refusal changes nothing; an accepted call leaves words in range. The reply."""
        before = list(words)
        reply = im.do(words, call)
        if reply[0] == 'refused':
            self.assertIn(reply[1], (*range(2, 10), 14, 15))
            self.assertEqual(words, before)
        else:
            self.assertTrue(im.in_range(words), (before, call))
        return reply

    def check_all(self, words):
        P = min(words[2], 4) if len(words) > 2 else 1
        calls = [('d',), ('drain', 2)] + [('e', t, 3) for t in range(P + 2)] + [('s', t, (), 0) for t in range(P + 2)]
        calls.append(('s', 0, tuple(LENT[0]), 0))
        return {call: self.check(list(words), drain_stores.fresh(call)) for call in calls}

    def test_random_single_words(self):
        """A word that the engine trusts without looking: one wrong word in a reachable store."""
        rng = random.Random(1)
        for seed in range(100):
            recorder = Recorder(2, 3, 2, 12)
            random_calls(recorder, seed, rng.randrange(120))
            for _ in range(25):
                words = list(recorder.words)
                words[rng.randrange(len(words))] = rng.choice((0, 1, 2, 3, 4, 5, 7, 11, 12, 13, 500_002, 2**32 - 1))
                self.check_all(words)
                t = rng.randrange(words[2] + 1) if words[2] <= 2 else 0
                self.check_all(step_counts.with_steps(words, t, rng.choice(step_counts.EDGES)))

    def test_random_stores_in_range(self):
        """A link or an index followed outside the store; a 9 in a phase that has none, or none where one is due. With the
        last number of steps it is due in all."""
        rng = random.Random(2)
        met, met_full = set(), set()
        for _ in range(6000):
            words = random_store(rng)
            self.assertTrue(im.in_range(words))
            for call, reply in self.check_all(words).items():
                if reply == refused(9):
                    role = 'start' if call[0] == 'e' else 'producer' if call[1] else 'consumer'
                    full = step_counts.steps_of(words)[call[1]] == MOST_STEPS
                    (met_full if full else met).add((role, words[16 + 8 * call[1]]))
        self.assertEqual(met, self.CAN_MEET_9)
        self.assertEqual(met_full, self.ALL_PHASES)

    def test_random_words_and_lengths(self):
        """A store of any words and any length that is not turned down with 2 or 3, or that raises."""
        rng = random.Random(3)
        for _ in range(2000):
            length = rng.choice((0, 3, 15, 16, 17, 70, 200))
            words = [rng.choice((0, 1, 2, 3, 16, 32, rng.randrange(2**32))) for _ in range(length)]
            for reply in self.check_all(words).values():
                self.assertIn(reply, (refused(2), refused(3)))

    def test_retired_records_that_are_held_or_claimed(self):
        """A free map that looks at held words alone, at claimed words alone, or at some phases."""
        words = opened(2, 3, 1, 4)
        for record in (32, 42, 52):
            words[record], words[record + 3] = 1, 3
        self.assertEqual(im.free_records(words), [0, 1, 2])
        words[24:32] = [2, 1, 5, 0, 3, 0, 0, 0]
        self.assertEqual(im.free_records(words), [0, 1])
        words[24:32] = [5, 1, 5, 2, 1, 2, 0, 0]
        self.assertEqual(im.free_records(words), [2])

    def test_words_past_the_store_are_never_written(self):
        """A write past the words that the sizes need."""
        size = needed_words(2, 3, 2)
        recorder = Recorder(2, 3, 2, 30, words=[77] * (size + 5))
        random_calls(recorder, 4, 600)
        self.assertEqual(recorder.words[size:], [77] * 5)
        self.assertGreater(recorder.words[im.TAIL], 10)


def random_store(rng):
    """A store of random words, each within its range."""
    B, N, P, M = rng.randint(2, 3), rng.randint(2, 4), rng.randint(1, 2), rng.randint(1, 9)
    words = [B, N, P, M, 16, 16 + 8 * (P + 1), rng.randint(0, M), rng.randint(1, N), rng.randint(1, N)]
    words += [rng.randint(0, M), rng.randint(0, M), rng.randint(1, N)] + [0] * 4
    word_12 = rng.randint(0, 1)
    for t in range(P + 1):
        by_phase = im.thread_limits(N, M)[1 if t else 0]
        phase = rng.choice(list(by_phase))
        words += [phase] + [rng.randint(0, min(limit, 12)) for limit in by_phase[phase][1:-1]]
        words.append(step_counts.drawn(rng) if phase else 0)
    words[12] = word_12 if words[16] in (3, 4) else 0
    for _ in range(N):
        words += [rng.choice((0, 1, 1, 2, 2, 3, 4, 500_002)), rng.randint(0, N), rng.randint(0, N), rng.randint(0, 3)]
        for _ in range(B):
            words += [rng.randint(0, 2), rng.randint(0, M), rng.randrange(2**32)]
    return words + drain_stores.area(rng, M, words[16])


if __name__ == '__main__':
    unittest.main()
