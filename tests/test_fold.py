"""Fold what has been read (document 02, U6): stores and runs worked out by hand, and wrong engines."""

import random
import unittest

import claim_stores
import drain_stores
import fold_stores
import intake_model as im
from fold_stores import record_at, with_word_12
from intake_model import Intake, MOST_STEPS, Recorder, step
from test_model import D, E, LENT, OK, S, changed, dequeue_whole, end, enqueue_whole, going, opened, refused

# Wrong engines.


class NeverFolds(Intake):
    """A crossing leaves the record in the list."""

    def fold(self, r):
        pass


class FoldsTheHeadRecord(Intake):
    """A fold does not ask whether the record is the head record."""

    def read_whole(self, r):
        return self.w[im.ALL_HANDLED] == 1


class FoldsWithoutWord12(Intake):
    """A fold does not ask what was read."""

    def read_whole(self, r):
        return self.w[im.HEAD_RECORD] != r + 1


class FoldsPastAnEmptyEntry(Intake):
    """An empty entry leaves word 12 as it is."""

    def scan_entry(self):
        before, cursor = self.w[im.ALL_HANDLED], self.mine(im.CURSOR_POSITION)
        reply = super().scan_entry()
        if self.mine(im.CURSOR_POSITION) == cursor + 1:
            self.w[im.ALL_HANDLED] = before
        return reply


class CutsItsLinks(Intake):
    """A folded record loses its own links."""

    def fold(self, r):
        super().fold(r)
        self.following = self.part(r, im.NEXT)
        self.put_part(r, im.PREV, 0)

    def cross(self, r):
        super().cross(r)
        if self.part(r, im.USE) == im.USE_RETIRED:
            self.put_part(r, im.NEXT, 0)


class JoinsNextAlone(Intake):
    """The record after a folded one keeps its prev."""

    def fold(self, r):
        following = self.part(r, im.NEXT) - 1
        before = self.part(following, im.PREV)
        super().fold(r)
        self.put_part(following, im.PREV, before)


class JoinsPrevAlone(Intake):
    """The record before a folded one keeps its next."""

    def fold(self, r):
        before = self.part(r, im.PREV) - 1
        super().fold(r)
        self.put_part(before, im.NEXT, r + 1)


class StaysLinked(Intake):
    """A folded record is not retired."""

    def fold(self, r):
        super().fold(r)
        self.put_part(r, im.USE, im.USE_LINKED)


class LeavesWord12(Intake):
    """Word 12 is not cleared where the scan ends."""

    def idle(self, reply):
        before = self.w[im.ALL_HANDLED]
        super().idle(reply)
        self.w[im.ALL_HANDLED] = before
        return reply


class FreesWhatIsNotHeld(Intake):
    """A retired record is free when no producer holds it, whatever else they hold: document 01's rule."""

    def next_record(self):
        held, uses = im.held_records(self.w), im.record_parts(self.w, im.USE)
        free = [r for r, use in enumerate(uses) if use == im.USE_FREE or use == im.USE_RETIRED and r not in held]
        return im.first_after_last(self.w, free)


FOLDING = (
    NeverFolds, FoldsTheHeadRecord, FoldsWithoutWord12, FoldsPastAnEmptyEntry, CutsItsLinks, JoinsNextAlone, JoinsPrevAlone,
    StaysLinked, LeavesWord12, FreesWhatIsNotHeld,
)


# Runs, for an engine or what stands beside one. Records 0 to 3 of a store with B = 2, P = 2 stand at words 40, 50, 60, 70.


def stopped_front(opened, N=4, P=2):
    """B = 2. Producer 1 takes position 0 and stops. Producer 2 enqueues 11, 12, 13, 14 at positions 1 to 4. Three dequeues
    give positions 1 to 3; record 1, of place 2, is all handled then."""
    recorder = opened(2, N, P, 99)
    recorder.run(E(1, 10))
    for v, steps in zip(range(11, 15), (6, 7, 6, 7)):
        recorder.run(E(2, v) + S(2, steps - 1))
    for steps in (7, 11, 15):
        recorder.run(D + S(0, steps))
    return recorder


def heads(recorder):
    """Place, next, prev and use of each record."""
    words = recorder.words
    size = im.record_words(words[0])
    return [words[words[5] + size * r :][:4] for r in range(words[1])]


class Folding(unittest.TestCase):
    """Runs by hand."""

    def test_word_by_word(self):
        """A fold that is made at another step, joins one way only, cuts the record's own links, writes something else, or
        goes on elsewhere; a word 12 that is set or cleared at another step. The fourth dequeue of the run, step by step."""
        recorder = stopped_front(Recorder)
        words = recorder.words
        self.assertEqual(heads(recorder), [[1, 2, 0, 2], [2, 3, 1, 2], [3, 0, 2, 2], [0, 0, 0, 0]])
        self.assertEqual([words[50 + k] for k in (4, 7)], [2, 2])
        # phase, cursor record, cursor position, word 12 after each step
        scan = [(1, 0, 0, 0), (2, 0, 0, 0), (3, 1, 1, 0), (4, 1, 1, 0), (3, 1, 2, 0), (3, 2, 2, 1), (4, 2, 2, 1)]
        scan += [(3, 2, 3, 1), (4, 2, 3, 1), (3, 2, 4, 1)]
        recorder.run(D)
        for k, expected in enumerate(scan):
            self.assertEqual((*words[16:19], words[12]), expected)
            before = list(words)
            self.assertEqual(recorder.run(S(0)), going(k + 1))
        fold = {12: 1, 17: 3, 18: 4, 23: 10, 41: 3, 62: 1, 53: 3}
        self.assertEqual(words, changed(before, fold))
        self.assertEqual(heads(recorder), [[1, 3, 0, 2], [2, 3, 1, 3], [3, 0, 1, 2], [0, 0, 0, 0]])
        # position 4 is set: found, and the rescan's crossing out of record 0 lands on it
        rest = [(4, 3, 4, 1), (5, 1, 0, 0), (5, 1, 1, 0), (5, 1, 2, 0), (6, 0, 0, 0), (7, 0, 0, 0)]
        for k, expected in enumerate(rest):
            self.assertEqual(recorder.run(S(0)), going(k + 11))
            self.assertEqual((*words[16:19], words[12]), expected)
        self.assertEqual(recorder.run(S(0)), item_of(5, 14, 17))
        self.assertEqual(im.free_records(words), [1, 3])
        # the next dequeue crosses from record 0 to record 2 and meets tail
        self.assertEqual(recorder.run(D + S(0, 5)), [OK] + going(1, 5))
        self.assertEqual((*words[16:19], words[12]), (3, 3, 4, 1))
        self.assertEqual(recorder.run(S(0, 3)), going(6, 7) + [('empty', 8)])
        self.assertEqual((words[12], words[16:24]), (0, [0] * 8))
        # producer 1 loads record 2 and goes back to record 0 in one step
        self.assertEqual(recorder.run(S(1, 4)), going(2, 4) + end(5))
        self.assertEqual(recorder.run(D + S(0, 3)), [OK] + going(1, 2) + item_of(1, 10, 3))
        # the head passes position 1 and leaves record 0 for record 2
        self.assertEqual(recorder.run(D + S(0, 3)), [OK] + going(1, 3))
        self.assertEqual((words[8], words[9], heads(recorder)[0]), (3, 5, [1, 3, 0, 3]))
        self.assertEqual(recorder.run(S(0, 2)), going(4) + [('empty', 5)])

    def test_not_after_an_empty_entry(self):
        """A fold of a record with an entry that is empty: its first or its last."""
        for taken in (2, 3):
            recorder = Recorder(2, 4, 3, 99)
            recorder.run(E(1, 10))
            for position in range(1, 5):
                if position == taken:
                    recorder.run(E(3, 13))
                else:
                    enqueue_whole(recorder, 2, 10 + position)
            for _ in range(4):
                dequeue_whole(recorder)
            self.assertEqual([use for *_, use in heads(recorder)], [2, 2, 2, 0])

    def test_not_the_head_record(self):
        """A fold of the head record: its entries past the head are all handled, and it was not entered at its first."""
        recorder = Recorder(2, 4, 2, 99)
        recorder.run(E(1, 10))
        for v in (11, 12):
            enqueue_whole(recorder, 2, v)
        for _ in range(3):
            dequeue_whole(recorder)
        self.assertEqual([use for *_, use in heads(recorder)], [2, 2, 0, 0])

    def test_not_the_tail_record(self):
        """A fold of the tail record: all its entries are handled, the next is linked ahead, and the scan ends there."""
        recorder = Recorder(2, 4, 2, 99)
        recorder.run(E(1, 10))
        for v in (11, 12, 13):
            enqueue_whole(recorder, 2, v)
        for _ in range(3):
            dequeue_whole(recorder)
        self.assertEqual(recorder.run(D + S(0, 10)), [OK] + going(1, 9) + [('empty', 10)])
        self.assertEqual(heads(recorder), [[1, 2, 0, 2], [2, 3, 1, 2], [3, 0, 2, 2], [0, 0, 0, 0]])
        self.assertEqual(recorder.words[12], 0)

    def test_the_head_joins_nothing(self):
        """A move of the head record that joins, as a fold does: producer 1 ends before the scan, and the head leaves record 0
        for record 1, and that for record 2."""
        recorder = stopped_front(Recorder)
        self.assertEqual(recorder.run(S(1, 5)), going(2, 5) + end(6))
        self.assertEqual(dequeue_whole(recorder), ('item', 1, 10, 3))
        self.assertEqual(dequeue_whole(recorder), ('item', 5, 14, 8))
        self.assertEqual([head[3] for head in heads(recorder)], [3, 3, 2, 0])
        self.assertEqual([head[2] for head in heads(recorder)], [0, 1, 2, 0])

    def test_two_folds_in_one_scan(self):
        """A second fold that joins the first folded record in place of the one before it."""
        recorder = stopped_front(Recorder, N=5)
        for v in (15, 16):
            enqueue_whole(recorder, 2, v)
        self.assertEqual([dequeue_whole(recorder)[1] for _ in range(2)], [5, 6])
        self.assertEqual(heads(recorder)[:4], [[1, 3, 0, 2], [2, 3, 1, 3], [3, 4, 1, 2], [4, 0, 3, 2]])
        self.assertEqual(dequeue_whole(recorder)[1], 7)
        self.assertEqual(heads(recorder)[:4], [[1, 4, 0, 2], [2, 3, 1, 3], [3, 4, 1, 3], [4, 0, 1, 2]])

    def test_a_drain_folds(self):
        """A drain whose scan does not fold, or that leaves word 12 when it ends."""
        recorder, buffer = stopped_front(Recorder), [0] * 4
        recorder.run([('drain', 2)] + [('s', 0, buffer, 0)] * 10)
        self.assertEqual((recorder.words[12], heads(recorder)[1]), (1, [2, 3, 1, 3]))
        self.assertEqual(recorder.run([('s', 0, buffer, 0)] * 7)[-1], ('drained', 1, 17))
        self.assertEqual((recorder.words[12], buffer), (0, [5, 14, 0, 0]))
        self.assertEqual(recorder.run([('drain', 2)] + [('s', 0, buffer, 0)] * 8)[-1], ('drained', 0, 8))
        self.assertEqual(recorder.words[12], 0)

    def test_walk_over_a_folded_record(self):
        """A producer in phase 7 whose record is folded under it, and whose way back is lost: it holds record 2, of place 3, which
        is folded before record 1, of place 2. Record 1 is kept by it, though nobody holds it."""
        recorder, last = walk_run(Intake)
        self.assertEqual(last, ('end', 5))
        self.assertEqual((heads(recorder), recorder.words[11]), (FOLDED_TWICE + [[5, 0, 4, 2]], 5))
        self.assertEqual(recorder.words[24:32], [7, 1, 10, 0, 3, 0, 0, 2])
        self.assertEqual(recorder.run(S(1, 2)), going(3, 4))
        self.assertEqual(recorder.words[24:32], [8, 1, 10, 0, 1, 0, 1, 4])
        self.assertEqual(recorder.run(S(1, 2)), going(5) + end(6))
        self.assertEqual(dequeue_whole(recorder), ('item', 1, 10, 3))

    def test_wrong_folds(self):
        """Runs too weak to see a wrong engine: what the walk above, or the run by hand, then gives."""
        recorder, last = walk_run(FreesWhatIsNotHeld)
        self.assertEqual((last, recorder.words[11]), (('going', 5), 2))
        recorder.run(S(1))
        self.assertEqual(recorder.words[24:32], [3, 1, 10, 0, 2, 0, 1, 3])
        self.assertEqual(walk_run(CutsItsLinks)[0].run(S(1)), [refused(9)])
        seen = {engine.__name__: fold_of(engine) for engine in FOLDING}
        right = fold_of(Intake)
        self.assertEqual(right, ([[1, 3, 0, 2], [2, 3, 1, 3], [3, 0, 1, 2]], 0))
        self.assertEqual(
            {name for name, result in seen.items() if result == right},
            {'FoldsTheHeadRecord', 'FoldsWithoutWord12', 'FoldsPastAnEmptyEntry', 'FreesWhatIsNotHeld'},
        )
        self.assertEqual(empty_entry_run(Intake), [2, 2, 2, 0])
        for engine in (FoldsWithoutWord12, FoldsPastAnEmptyEntry):
            self.assertEqual(empty_entry_run(engine), [2, 3, 2, 0])


class Stores(unittest.TestCase):
    """Any store in phases 3, 4 and 5: reply and words by hand."""

    def check(self, words, reply, changes):
        """The step does this, as a dequeue with the stored number of steps; a full number is refused with 9."""
        after, steps = list(words), words[23]
        if reply[0] == 'going':
            changes = changes | {23: steps + 1}
        elif reply[0] == 'empty':
            changes = {12: 0} | {16 + k: 0 for k in range(8)}
        if reply[0] == 'refused' or steps == MOST_STEPS:
            expected = (refused(9), words)
        else:
            expected = ((reply[0], steps + 1), changed(words, changes))
        self.assertEqual((step(after, 0), after), expected)
        return expected[0][0]

    def test_crossing(self):
        """A fold of the head record, of the tail record, or of one that was not read whole; with prev none; that joins the
        wrong records where prev, next and the cursor's record are the same; a crossing that leaves word 12."""
        seen = set()
        for words in fold_stores.crossing(random.Random(1)):
            tail_record, head = words[7:9]
            cursor, own = words[17], record_at(words[17])
            following, before = words[own + 1 : own + 3]
            first = 2 * (words[record_at(following)] - 1) if following else -1
            folds = words[12] == 1 and cursor != head
            changes = {12: 1, 17: following, 18: first}
            if folds:
                changes |= {record_at(before) + 1: following, record_at(following) + 2: before, own + 3: 3}
            if cursor == tail_record:
                reply = ('empty',)
            elif not 0 <= first <= words[3] or folds and not before:
                reply = refused(9)
            else:
                reply = ('going',)
            same = (before == cursor, following == cursor, before == following)
            seen.add((self.check(words, reply, changes), folds, before == 0, same))
        for same in ((False, False, False), (True, False, False), (False, True, False), (False, False, True), (True, True, True)):
            self.assertIn(('going', True, False, same), seen)
        self.assertIn(('refused', True, True, (False, False, False)), seen)
        self.assertIn(('going', False, True, (False, False, False)), seen)

    def test_going_on(self):
        """A word 12 that is not cleared at tail, or that changes on the way to 4."""
        seen = set()
        for words in fold_stores.going_on(random.Random(2)):
            reply = refused(9) if not words[17] else ('empty',) if words[18] == words[6] else ('going',)
            seen.add((self.check(words, reply, {16: 4}), words[12]))
        self.assertEqual(seen, {(kind, word) for kind in ('going', 'empty', 'refused') for word in (0, 1)})

    def test_reading(self):
        """A word 12 that stays at an empty or a set entry, or that is cleared or set at a handled one."""
        seen = set()
        for words in fold_stores.reading(random.Random(3)):
            cursor, position = words[17:19]
            last = 2 * words[record_at(cursor)] if cursor else 0
            state = words[record_at(cursor) + 4 + 3 * (position % 2)] if cursor else None
            if not last - 2 <= position < last or state != 1 and position == words[3]:
                reply, changes = refused(9), {}
            elif state == 1:
                reply, changes = ('going',), {12: 0, 16: 5, 17: words[8], 18: words[9], 19: cursor, 20: position}
            else:
                reply, changes = ('going',), {12: words[12] if state == 2 else 0, 16: 3, 18: position + 1}
            seen.add((self.check(words, reply, changes), state, words[12]))
        self.assertLessEqual({('going', state, word) for state in range(3) for word in (0, 1)}, seen)

    def test_rescan(self):
        """A crossing of the rescan that folds, or that sets word 12."""
        rng, seen = random.Random(4), set()
        for words in fold_stores.crossing(rng):
            own = record_at(words[17])
            following = words[own + 1]
            first = 2 * (words[record_at(following)] - 1) if following else -1
            found = rng.choice((max(0, min(first, words[3])), rng.randint(0, words[3])))
            words = changed(words, {12: 0, 16: 5, 19: rng.randint(0, 4), 20: found})
            if not 0 <= first <= words[3]:
                reply, changes = refused(9), {}
            elif first == found:
                reply, changes = ('going',), {16: 6, 17: 0, 18: 0}
            else:
                reply, changes = ('going',), {17: following, 18: first}
            seen.add((self.check(words, reply, changes), first == found))
        self.assertLessEqual({('going', True), ('going', False), ('refused', False)}, seen)

    def test_range_of_word_12(self):
        """A word 12 of 2 or more that is let through in some phase, of 1 in a phase that does not scan, or of 1 that is not in
        one that does; by a start and by a step of any thread."""
        for phase in range(9):
            words = opened(2, 4, 1, 9)
            words[16:24] = [phase] + [1 if top else 0 for top in im.thread_limits(4, 9)[0][phase][1:]]
            words[24:32] = [2, 1, 7, 0, 0, 0, 0, 0]
            calls = [('d',), ('drain', 2), ('e', 1, 5), ('s', 0, *LENT), ('s', 1)]
            for word in (0, 1, 2, 3, 2**31, 2**32 - 1):
                allowed = word == 0 or word == 1 and phase in (3, 4)
                for call in map(drain_stores.fresh, calls):
                    store = with_word_12(words, word)
                    before = list(store)
                    reply = im.do(store, call)
                    self.assertEqual(reply == refused(3), not allowed, (phase, word, call))
                    self.assertTrue(allowed or store == before)

    def test_a_drain_ends_empty(self):
        """A drain that ends in phase 3 and leaves word 12, with an item or with none."""
        rng, seen = random.Random(5), set()
        for words in fold_stores.going_on(rng) + fold_stores.crossing(rng):
            words = drain_stores.draining(rng, words)
            reply = step(words, 0, *drain_stores.fresh(('s', 0, *LENT))[2:])
            if reply[0] == 'drained':
                self.assertEqual((words[12], words[16:24]), (0, [0] * 8))
                seen.add(reply[1] > 0)
        self.assertEqual(seen, {False, True})

    def test_wrong_folds(self):
        """Stores too few to see a wrong engine, a fold of the head record among them, which no run shows: word 12 is 0 at the end
        of the head record of every store that an engine wrote."""
        rng = random.Random(6)
        stores = fold_stores.crossing(rng) + fold_stores.going_on(rng) + fold_stores.reading(rng)
        right = [after_step(words, Intake) for words in stores]
        for engine in FOLDING:
            differs = any(after_step(words, engine) != expected for words, expected in zip(stores, right))
            self.assertEqual(differs, engine is not FreesWhatIsNotHeld, engine)


def after_step(words, engine):
    """The reply of a step of the consumer and the words after it."""
    after = list(words)
    return step(after, 0, engine=engine), after


class Free(unittest.TestCase):
    """A retired record is free exactly when no producer holds it or any retired record of greater place."""

    # Of records 0 to 3: places, uses; the held and the claimed word of producers 1 and 2; the free records.
    BY_HAND = (
        ((1, 2, 3, 4), (3, 3, 3, 3), (0, 0), (0, 0), [0, 1, 2, 3]),
        ((1, 2, 3, 4), (3, 3, 3, 2), (3, 0), (0, 0), []),  # record 2 is held, of place 3
        ((1, 2, 3, 4), (3, 3, 3, 3), (3, 0), (0, 0), [3]),
        ((1, 2, 3, 4), (3, 3, 3, 3), (0, 0), (0, 3), [3]),  # claimed, though it is retired
        ((4, 3, 2, 1), (3, 3, 3, 3), (3, 0), (0, 0), [0, 1]),
        ((2, 2, 2, 2), (3, 3, 3, 3), (3, 0), (0, 0), [0, 1, 3]),  # equal places
        ((0, 2, 0, 2), (3, 3, 3, 3), (3, 0), (0, 0), [0, 1, 3]),
        ((1, 2, 3, 4), (3, 3, 2, 2), (3, 0), (4, 0), [0, 1]),  # those that are held are linked
        ((1, 2, 3, 4), (3, 3, 1, 3), (0, 3), (0, 0), [0, 1, 3]),  # that one is claimed
        ((1, 2, 3, 4), (0, 0, 3, 3), (3, 0), (4, 0), [0, 1]),  # use 0 is free, whatever is held
        ((1, 2, 3, 4), (3, 0, 0, 3), (2, 0), (3, 0), [0, 1, 2, 3]),  # also if it is held itself, and then keeps none
        ((1, 5, 3, 3), (3, 3, 3, 3), (3, 0), (1, 0), [1, 3]),  # the greatest of two
        ((1, 5, 3, 3), (3, 3, 3, 3), (1, 2), (0, 0), []),
    )

    def test_by_hand(self):
        """The old rule of free; a rule that compares places the wrong way, or equal ones; that looks at linked or claimed
        records, at held words or claimed words alone, or at the first producer alone."""
        for places, uses, first, second, free in self.BY_HAND:
            words = opened(2, 4, 2, 9)
            for r in range(4):
                words[40 + 10 * r], words[43 + 10 * r] = places[r], uses[r]
            for own, (held, claimed) in ((24, first), (32, second)):
                words[own : own + 8] = [5, 1, 7, 0, held, claimed, 0, 0]
            self.assertTrue(im.in_range(words))
            self.assertEqual(im.free_records(words), free, (places, uses, first, second))

    def test_any_store(self):
        """A search that finds a record that is not free, or none where one is: for each record, by each producer in turn."""
        rng, seen = random.Random(6), set()
        for words in claim_stores.small(rng) + claim_stores.large(rng, 300):
            N, P = words[1:3]
            place, use = ([words[words[5] + 10 * r + k] for r in range(N)] for k in (0, 3))
            holds = [{words[own + 4] - 1, words[own + 5] - 1} - {-1} for own in range(24, 24 + 8 * P, 8)]
            for r in range(N):
                keepers = [x for mine in holds for x in mine if x == r or use[x] == 3 and place[x] > place[r]]
                free = use[r] == 0 or use[r] == 3 and not keepers
                self.assertEqual(r in im.free_records(words), free)
                seen.add((use[r], r in keepers, bool(set(keepers) - {r})))
        self.assertEqual(len(seen), 16)


def item_of(call, value, steps):
    return [('item', call, value, steps)]


def fold_of(engine):
    """The first three records after the run by hand, with its fourth dequeue, and word 12 after an empty one more."""
    recorder = stopped_front(lambda *sizes: Recorder(*sizes, engine=engine))
    dequeue_whole(recorder)
    records = heads(recorder)[:3]
    dequeue_whole(recorder)
    return records, recorder.words[12]


def empty_entry_run(engine):
    """The uses of the records after a scan over record 1, of which position 2 is handled and position 3 empty."""
    recorder = Recorder(2, 4, 3, 99, engine=engine)
    recorder.run(E(1, 10))
    for v in (11, 12):
        enqueue_whole(recorder, 2, v)
    recorder.run(E(3, 13))
    enqueue_whole(recorder, 2, 14)
    for _ in range(3):
        dequeue_whole(recorder)
    return [use for *_, use in heads(recorder)]


FOLDED_TWICE = [[1, 4, 0, 2], [2, 4, 1, 3], [3, 4, 2, 3], [4, 5, 1, 2]]


def walk_run(engine):
    """B = 2, N = 5. Producer 1 takes 0 and stops; producer 3 takes 2 and stops. Producer 2 enqueues at 1, 3 and 4, and producer 1
    loads record 2, of place 3, and stands in 7. Producer 2 enqueues up to position 6; what is set is taken, and the scan folds
    record 2, whose prev is record 1. Producer 3 ends and its item is taken; the next scan folds record 1. Producer 2 enqueues at
    7, with the last free record, and 8, and claims ahead at 9: the recorder, and the reply of that claim."""
    recorder = Recorder(2, 5, 3, 99, engine=engine)
    recorder.run(E(1, 10))
    enqueue_whole(recorder, 2, 11)
    recorder.run(E(3, 12))
    for v in (13, 14):
        enqueue_whole(recorder, 2, v)
    recorder.run(S(1))
    for v in (15, 16):
        enqueue_whole(recorder, 2, v)
    for _ in range(5):
        dequeue_whole(recorder)
    recorder.run(S(3, 9))
    for _ in range(2):
        dequeue_whole(recorder)
    for v in (17, 18):
        enqueue_whole(recorder, 2, v)
    return recorder, recorder.run(E(2, 19) + S(2, 4))[-1]


if __name__ == '__main__':
    unittest.main()
