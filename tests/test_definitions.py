"""The definitions in antt against the model: the checker computes them over generated tables.

What a table expects comes from `intake_model`, `judge_model`, `comparison_model` and `census_model` alone. A statement that does not hold is
named by the checker, with the number of its case."""

import concurrent.futures
import os
import pathlib
import re
import subprocess
import tempfile
import unittest

import census_cases as census
import census_model
import comparison_cases as cc
import comparison_model as cm
import definition_cases as dc
import intake_model as im
import judge_model as jm
import order_cases as oc
import test_model


def setUpModule():
    global SCHEDULES, COUNTS, SINGLES, CLAIMS, HISTORIES, LISTINGS, LATES, CHECKS, COMPARISONS, KEEPINGS, BOARDS, ROWS, RANGES, OWED
    SCHEDULES = dc.schedules(1, 3_200)
    COUNTS = [dc.counted(case, 30 + k) for k, case in enumerate(SCHEDULES)]
    SINGLES = dc.singles(8, [store for case in SCHEDULES for store in dc.snapshots(case)], 2_600)
    CLAIMS = dc.claims(7, 90)
    HISTORIES = dc.histories(3, 1_600)
    LISTINGS, LATES, CHECKS = oc.listings(9, 200), oc.lates(10, 400), oc.checks(11, 800)
    COMPARISONS, KEEPINGS = cc.comparisons(12, 600), cc.keepings(13, 600)
    BOARDS, ROWS, RANGES, OWED = census.calls(14, 340), census.rows(15, 300), census.ranges(16, 200), census.owed(17, 36)


def errors(output):
    """The names of the statements that the checker refused."""
    return set(re.findall(r'^\S+\.antt:\d+:\d+: error: `([\w-]+)`', output, re.MULTILINE))


class Tables(unittest.TestCase):
    """Every case of the tables, computed by the checker."""

    @classmethod
    def setUpClass(cls):
        cls.folder = tempfile.TemporaryDirectory()
        cls.addClassCleanup(cls.folder.cleanup)
        short = [dc.play(case.lent, case.sizes, case.calls[:9]) for case in SCHEDULES[:8]]
        cls.sample = short + [dc.counted(case, 9) for case in short[:4]] + SINGLES[::85] + CLAIMS[::67] + HISTORIES[10::53]
        cls.sample += LISTINGS[::17] + LATES[::31] + CHECKS[::53] + COMPARISONS[4::29] + KEEPINGS[::59]
        cls.sample += BOARDS[::19] + ROWS[::25] + RANGES[::17] + OWED[::7]
        crates = {
            'schedules': dc.split('schedule', SCHEDULES, 10),
            'counts': dc.split('count', COUNTS, 10),
            'singles': dc.split('single', SINGLES, 100),
            'claims': dc.split('claim', CLAIMS, 200),
            'histories': dc.split('history', HISTORIES, 200),
            'listings': dc.split('listing', LISTINGS, 200),
            'lates': dc.split('late', LATES, 200),
            'checks': dc.split('check', CHECKS, 200),
            'comparisons': dc.split('comparison', COMPARISONS, 200),
            'keepings': dc.split('keeping', KEEPINGS, 200),
            'boards': dc.split('calls', BOARDS, 100),
            'rows': dc.split('rows', ROWS, 100),
            'ranges': dc.split('range', RANGES, 100),
            'owed': dc.split('owed', OWED, 100),
            'twins': dc.twins(4, cls.sample),
        }
        dc.write_repository(cls.folder.name, crates)
        # the definitions first, then the tables over them
        cls.said = {'tables': cls.check('tables')}
        with concurrent.futures.ThreadPoolExecutor(os.cpu_count()) as pool:
            cls.said |= dict(zip(crates, pool.map(cls.check, crates)))

    @classmethod
    def check(cls, name):
        """The exit status and the words of `rt check` in a crate's folder."""
        folder = pathlib.Path(cls.folder.name) / 'crates' / name
        run = subprocess.run(['rt', 'check'], cwd=folder, capture_output=True, text=True)
        return run.returncode, run.stdout + run.stderr

    def assert_proved(self, name):
        ended, output = self.said[name]
        self.assertEqual(ended, 0, output[-4000:])
        self.assertRegex(output, '(?m)^logic=proved', output[-4000:])

    def test_schedules(self):
        """A rule, a range, a check or its number, a write, a number of steps, the items left or an event of the history,
        wrong somewhere in a list of calls."""
        self.assert_proved('schedules')

    def test_counts(self):
        """A number of accepted steps counted in a list of calls otherwise than by its replies."""
        self.assert_proved('counts')

    def test_single_calls(self):
        """A damaged store admitted or turned down wrongly, a link or an index not looked at, a write by a refusal."""
        self.assert_proved('singles')

    def test_claims(self):
        """A claim that takes another record than the next free one: from any record claimed last, past the end, with no
        record free, or none but the one claimed last."""
        self.assert_proved('claims')

    def test_histories(self):
        """A form, an order of refusals, a row or a verdict, wrong on words that are a history or nearly one."""
        self.assert_proved('histories')

    def test_listings(self):
        """A starting number counted from 0, or by something else than the starts; another call or field than the one listed."""
        self.assert_proved('listings')

    def test_late_orders(self):
        """A judge's order that is another linearization than its definition says in words, or is none."""
        self.assert_proved('lates')

    def test_checks_of_orders(self):
        """An order that is no linearization and is said to be one, or the other way round."""
        self.assert_proved('checks')

    def test_comparisons(self):
        """A reply of the comparison, the recording or the word of its rest, the words that are handed back, or a word for C, wrong."""
        self.assert_proved('comparisons')

    def test_keepings(self):
        """A second recording that may be trusted and is not, or the other way round."""
        self.assert_proved('keepings')

    def test_boards(self):
        """A number of a call of the census, a word of its board or of its reply, wrong; of one call or of some on a new board."""
        self.assert_proved('boards')

    def test_rows(self):
        """Words that are a table and are said to be none, or the other way round; a row read for another office or state."""
        self.assert_proved('rows')

    def test_ranges(self):
        """A word of a board that is held to another range, or to none."""
        self.assert_proved('ranges')

    def test_owed(self):
        """A state, a table or a census that the statement owes after a list of calls, and that is not the last one or a count afresh."""
        self.assert_proved('owed')

    def test_all_is_proved(self):
        """A crate of definitions that is not proved by itself."""
        self.assert_proved('tables')
        self.assertEqual({name for name, (ended, _) in self.said.items() if ended}, {'twins'})

    def test_one_wrong_value_is_refused(self):
        """A table that the checker does not compute, or of which it leaves a value out: the right one of two twins
        is to pass and the other not."""
        ended, output = self.said['twins']
        self.assertEqual(ended, 1, output[-4000:])
        self.assertEqual(errors(output), {f'wrong-{k}' for k in range(len(self.sample))})


class Reach(unittest.TestCase):
    """What the cases reach, counted by the model."""

    PRODUCER = [('producer', phase) for phase in range(2, 12)]
    CONSUMER = [('consumer', phase) for phase in range(1, 9)]

    def test_number_of_cases(self):
        """A generator that makes fewer cases than meant, or the same ones again."""
        self.assertGreaterEqual(sum(len(case.calls) for case in SCHEDULES), 3_200)
        self.assertEqual((len(SINGLES), len(CLAIMS), len(HISTORIES)), (2_600, 1_338, 1_600))
        self.assertGreater(len({(tuple(case.words), case.call) for case in SINGLES}), 1_850)
        self.assertGreater(len({(tuple(case.words), case.entries) for case in HISTORIES}), 1_300)

    def test_phases(self):
        """A phase that no accepted step of the schedules or of the single calls takes."""
        for cases, least in ((SCHEDULES, 10), (SINGLES, 5)):
            counts = dc.reached(cases)
            for phase in self.PRODUCER + self.CONSUMER:
                self.assertGreaterEqual(counts.get(phase + ('accepted',), 0), least, phase)

    def test_refusals(self):
        """A refusal that no call meets; 9 in a phase that can meet it, or in one that cannot."""
        counts = dc.reached(SCHEDULES + SINGLES)
        for number in (*range(1, 10), 14, 15):
            self.assertGreaterEqual(counts.get(('refused', number), 0), 20, number)
        with_last = dc.reached([case for case in SINGLES if stored_steps(case) == im.MOST_STEPS])
        singles = dc.reached([case for case in SINGLES if stored_steps(case) != im.MOST_STEPS])
        for phase in self.PRODUCER + self.CONSUMER:
            cannot = phase in (('producer', 2), ('producer', 4), ('producer', 10))
            self.assertEqual(phase + (9,) in singles, not cannot, phase)
            self.assertIn(phase + (9,), with_last)
            self.assertNotIn(phase + ('accepted',), with_last)
        for counts in (singles, with_last):
            self.assertIn(('producer', 4, 8), counts)

    def test_numbers_of_steps(self):
        """A kind of accepted step that is not tried with the last number but one, or a phase with one past the last; no
        idle thread whose number is not zero; no call of many steps in the schedules."""
        self.assertLessEqual(test_model.ACCEPTED_STEPS, single_steps(im.MOST_STEPS - 1))
        past = {kind[:2] for kind in single_steps(im.MOST_STEPS + 1) if kind[2:] == ('refused', 3)}
        phases = {kind[:2] for kind in test_model.ACCEPTED_STEPS}
        self.assertEqual(past & phases, phases)
        self.assertIn((True, 0, 'refused', 3), single_steps(1))
        self.assertIn((False, 0, 'refused', 3), single_steps(1))
        calls = [step for case in SCHEDULES for step in dc.steps_of(case)]
        steps = [reply[-1] for _, call, reply in calls if call[0] == 's' and reply[0] != 'refused']
        self.assertGreater(sum(count > 9 for count in steps), 10)

    def test_starts(self):
        """No start enqueue of a producer with a call under way, or of an idle one, when starts, tail or both have come to M; none
        that is accepted where tail is not starts."""
        starts = [case for case in SINGLES if case.call[0] == 'e' and im.admission(case.words) == 0]
        seen = [(case.words[im.STARTS] == case.words[3], case.words[im.TAIL] == case.words[3], case.expected[0]) for case in starts]
        for full in ((True, False), (False, True), (True, True)):
            self.assertGreater(seen.count((*full, ('refused', 5))), 1, full)
        self.assertGreater(seen.count((True, False, ('refused', 6))), 5)
        self.assertGreater(seen.count((True, True, ('refused', 6))), 5)
        self.assertGreater(seen.count((False, True, ('refused', 9))), 5)
        accepted = [case.words for case in starts if case.expected[0][0] == 'ok']
        for apart in (-1, 1):
            self.assertGreater(sum((words[im.TAIL] - words[im.STARTS]) * apart > 0 for words in accepted), 5, apart)

    def test_phase_1_of_a_producer(self):
        """No call of some kind on a store that is out of range by a producer's phase 1 alone."""
        stores = [case for case in SINGLES if case.call[0] != 'open' and im.admission(case.words) == 3]
        calls = [case.call[0] for case in stores if in_range_in_phase_2(case.words)]
        for kind, least in (('s', 10), ('e', 3), ('d', 3), ('drain', 3)):
            self.assertGreater(calls.count(kind), least, kind)

    def test_histories_of_schedules(self):
        """Schedules whose histories lack a kind of event, or are too short to show an order."""
        kinds = [event[0] for case in SCHEDULES for event in case.expected[3]]
        for kind in range(1, 6):
            self.assertGreater(kinds.count(kind), 30, kind)
        self.assertGreater(sum(len(case.expected[3]) > 10 for case in SCHEDULES), 20)

    def test_stores(self):
        """No case of a short store, of sizes out of limits, of a place 0, or of words past the store."""
        lengths = [len(case.words) for case in SINGLES if case.call[0] != 'open']
        self.assertGreater(sum(length < 16 for length in lengths), 30)
        admitted = [case for case in SINGLES if case.call[0] != 'open' and im.admission(case.words) == 0]
        self.assertGreater(len(admitted), 600)
        self.assertGreater(sum(len(case.words) > im.needed_words(*case.words[:3]) for case in admitted), 20)
        self.assertGreater(sum(0 in places(case.words) for case in admitted), 40)
        long = [case for case in SINGLES if len(case.words) >= 16]
        self.assertGreater(sum(not im.sizes_allowed(case.words[:4]) for case in long), 50)
        past = [case for case in SCHEDULES if len(case.lent) > im.needed_words(*case.sizes[:3])]
        self.assertGreater(sum(any(case.expected[1][-1:]) for case in past), 10)

    def test_last_claimed(self):
        """No store that is out of range by word 11 alone, with 0, with N + 1 or with more, or by one of words 13 to 15
        alone; no claim from some record of a small store."""
        stores = [case.words for case in SINGLES if case.call[0] != 'open' and im.admission(case.words) == 3]
        last = [(words[im.LAST_CLAIMED], words[1]) for words in stores if in_range_with(words, im.LAST_CLAIMED, 1)]
        self.assertGreater(sum(word == 0 for word, _ in last), 10)
        self.assertGreater(sum(word == N + 1 for word, N in last), 10)
        self.assertGreater(sum(word > N + 1 for word, N in last), 10)
        for k in range(im.SPARE, im.CONTENTS):
            self.assertGreater(sum(in_range_with(words, k, 0) for words in stores), 5, k)
        steps = [step for case in SINGLES for step in dc.steps_of(case)]
        claims = {(words[1], words[im.LAST_CLAIMED]) for words, call, reply in steps if claims_one(words, call, reply)}
        self.assertEqual(claims, {(N, last) for N in range(2, 5) for last in range(1, N + 1)})

    def test_folding(self):
        """No store that is out of range by word 12 alone, with 1 or with more, in some phase; no scan that folds, that has word 12
        set and does not fold, or that meets 9 with prev none alone; no reading of an entry in some state with word 12 set."""
        stores = [case.words for case in SINGLES if case.call[0] != 'open' and im.admission(case.words) == 3]
        wrong = [(words[im.CONTENTS], min(words[im.ALL_HANDLED], 2)) for words in stores if in_range_with(words, im.ALL_HANDLED, 0)]
        for phase in range(9):
            self.assertIn((phase, 2), wrong)
            self.assertEqual((phase, 1) in wrong, phase not in im.SCANNING)
        steps = [step for case in SINGLES for step in dc.steps_of(case)]
        admitted = [(words, reply) for words, call, reply in steps if call[:2] == ('s', 0) and im.admission(words) == 0]
        scans = [(words[im.ALL_HANDLED], crossed(words), reply[0]) for words, reply in admitted if words[im.CONTENTS] == 3]
        for known in ((0, 'another', 'going'), (1, 'another', 'going'), (1, 'head record', 'going'), (1, 'prev none', 'refused')):
            self.assertGreater(scans.count(known), 2, known)
        for word in (0, 1):
            self.assertGreater(scans.count((word, 'tail record', 'empty')), 2)
        self.assertLessEqual({(phase, 1, reply) for phase in im.SCANNING for reply in ('going', 'refused')},
                             {(words[im.CONTENTS], words[im.ALL_HANDLED], reply[0]) for words, reply in admitted})

    def test_folds(self):
        """Too few schedules in which a record is folded."""
        self.assertGreater(sum(map(dc.folds, SCHEDULES)), 4)

    def test_kept(self):
        """No claim on a store with a retired record that nobody holds and that is not free."""
        kept = [words for words, _ in CLAIMS if keeps_some(words)]
        self.assertGreater(len(kept), 80)
        self.assertGreater(sum(im.next_free(words) is None for words in kept), 20)

    def test_claims(self):
        """No claim from record 63, past the end, over a lower free record, of the record claimed last, or of none; on the
        small stores, some record that is never taken from some other."""
        seen = [(words[1], words[im.LAST_CLAIMED], record, im.free_records(words)) for words, record in CLAIMS]
        for N in range(2, 5):
            every = {(last, record) for last in range(1, N + 1) for record in range(N + 1)}
            self.assertEqual({(last, record) for n, last, record, _ in seen if n == N}, every)
        large = [case for case in seen if case[0] == 64]
        self.assertGreater(sum(last == 64 and record > 0 for _, last, record, _ in large), 5)
        self.assertGreater(sum(0 < record < last for _, last, record, _ in large), 5)
        self.assertGreater(sum(free[0] + 1 < record for *_, record, free in large if free), 5)
        self.assertGreater(sum(record == last for _, last, record, _ in large), 5)
        self.assertGreater(sum(record == 0 for _, _, record, _ in large), 5)

    def test_letting_go(self):
        """No mark that brings the head to the end of its record, be that the tail record or not; no phase 8 with next
        none, with a first position below 0 or above M, at the tail record, with the head elsewhere, or out of range."""
        steps = [step for case in SINGLES for step in dc.steps_of(case)]
        admitted = [(words, reply) for words, call, reply in steps if call[:2] == ('s', 0) and im.admission(words) == 0]
        marks = [(marked(words), reply[0]) for words, reply in admitted if words[im.CONTENTS] == 7]
        self.assertGreater(marks.count(('end of the tail record', 'item')), 5)
        self.assertGreater(marks.count(('end of another', 'going')), 10)
        self.assertGreater(marks.count(('elsewhere', 'item')), 20)
        moves = [(moved(words), reply[0]) for words, reply in admitted if words[im.CONTENTS] == 8]
        for why in ('next is none', 'below 0', 'above M'):
            self.assertGreater(moves.count((why, 'refused')), 5, why)
        self.assertGreater(moves.count(('within M', 'item')), 20)
        in_8 = [words for words, reply in admitted if words[im.CONTENTS] == 8 and reply[0] == 'item']
        self.assertGreater(sum(words[im.HEAD_RECORD] == words[im.TAIL_RECORD] for words in in_8), 5)
        self.assertGreater(sum(not at_its_end(words, words[im.HEAD_POSITION]) for words in in_8), 5)
        outside = [reply for words, call, reply in steps if len(words) > 16 and words[16] == 8 and call[:2] == ('s', 0)]
        self.assertGreater(outside.count(('refused', 3)), 5)

    def test_drains(self):
        """No schedule in which a drain gives several items, ends with its last one moved, or meets 15; no single step that ends
        a drain in each phase in which one ends, with room to the word, with one word less, with the buffer ending before the
        named word; no limit at the edge of its range."""
        replies = [reply for case in SCHEDULES for reply in case.expected[0]]
        sizes = [len(reply[1]) for reply in replies if reply[0] == 'drained']
        for items in range(3):
            self.assertGreater(sizes.count(items), 3, items)
        self.assertGreater(max(sizes), 2)
        steps = [step for case in SCHEDULES for step in dc.steps_of(case)]
        moved = [reply for words, _, reply in steps if reply[0] == 'drained' and 0 < len(reply[1]) == im.drain_word(words, im.COUNT)]
        self.assertGreater(len(moved), 3)
        self.assertGreater(replies.count(('refused', 15)), 5)
        ends = [(case.words[im.CONTENTS], lack(case)) for case in SINGLES if lack(case) is not None]
        for phase in (1, 2, 3, 7, 8):
            for what in ('fits', 'too short', 'ends before'):
                self.assertIn((phase, what), ends)
        self.assertGreater(ends.count((1, 'fits')) + ends.count((7, 'fits')), 10)
        limits = {(case.call[1], case.expected[0]) for case in SINGLES if case.call[0] == 'drain'}
        for limit, reply in ((0, ('refused', 14)), (1, ('ok',)), (64, ('ok',)), (65, ('refused', 14)), (im.U32, ('refused', 14))):
            self.assertIn((limit, reply), limits)

    def test_items_left(self):
        """Final stores that hold too few items to show their order."""
        self.assertGreaterEqual(sum(len(case.expected[2]) > 1 for case in SCHEDULES), 20)
        self.assertGreater(sum(map(dc.leaves_in_another_order, SCHEDULES)), 5)

    def test_verdicts(self):
        """A verdict or a refusal of the judge that too few word lists get."""
        verdicts = [case.expected[:1] if case.expected[0] != 'refused' else case.expected for case in HISTORIES]
        for verdict in [('explained',), ('unexplained',)] + [('refused', number) for number in range(10, 14)]:
            self.assertGreater(verdicts.count(verdict), 60, verdict)


    def test_orders(self):
        """Too few orders that are right, that are wrong in the calls that they keep, in time or in the queue alone, or that have a number
        out of range or twice; late orders in which no enqueue waits for a dequeue, is due for one behind it, or is under way; listings past
        the calls."""
        faults = [fault(case) for case in CHECKS]
        for kind in ('none', 'range', 'twice', 'ended', 'time', 'queue'):
            self.assertGreater(faults.count(kind), 20, kind)
        self.assertGreater(sum(case.expected != sorted(case.expected) for case in LATES), 150)
        self.assertGreater(sum(oc.due_for_another(case.history, case.expected) for case in LATES), 100)
        kept = [[jm.calls_of(case.history)[number - 1].end for number in case.expected] for case in LATES]
        self.assertGreater(sum(0 in ends for ends in kept), 30)
        self.assertGreater(sum(('deq', 0, 0, ()) in case.expected for case in LISTINGS), 30)
        self.assertGreater(len({str(case) for case in LATES}), 300)
        self.assertGreater(len({str(case) for case in CHECKS}), 700)

    def test_two_recordings(self):
        """A reply that too few pairs get; too few rests of some recording, after no event, after some or after all; too few pairs with the
        same calls of which one is another than the other, that keep the precedence or not."""
        replies = [case.expected[0] for case in COMPARISONS]
        for reply in ('same', 'other', *(('refused', recording, number) for recording in (1, 2) for number in (10, 12, 13))):
            self.assertGreater(replies.count(reply), 5, reply)
        rests = [(case.expected[1][0], shared(case)) for case in COMPARISONS if case.expected[0][0] != 'refused']
        for recording in (1, 2):
            for where in ('nothing', 'some', 'all of the shorter'):
                self.assertGreater(rests.count((recording, where)), 10, (recording, where))
        drifted = [case for case in KEEPINGS if cm.compare(case.first, case.second)[0] == 'same' and case.first != case.second]
        for keeps in (False, True):
            self.assertGreater(sum(case.expected == keeps for case in drifted), 50, keeps)
        others = {cm.compare(case.first, case.second)[0] for case in KEEPINGS if not case.expected}
        self.assertGreater(len(others), 6, others)
        for cases in (COMPARISONS, KEEPINGS):
            self.assertGreater(len({(tuple(case.first), tuple(case.second)) for case in cases}), 500)

    def test_census(self):
        """A call of the census with a number that too few cases have; too few items that would take one office's count below 0 or above 512, or
        leave it at an end; too few damaged boards on which a call would be refused by its own number, too; too few tables, other words and
        boards out of range in some part."""
        made = [(call, number) for case in BOARDS for call, number in zip(case.calls, case.expected[0])]
        kinds = [(call[0], number) for call, number in made]
        for name, numbers in (('open', [0]), ('take', [0, 19, 22]), ('table', [0, 20, 22]), ('count', [0, 21, 22])):
            for number in numbers:
                self.assertGreater(kinds.count((name, number)), 5, (name, number))
        items = [case for case in BOARDS if len(case.calls) == 1 and case.calls[0][0] == 'take' and not census_model.out_of_range(case.board)]
        ends = [end for case in items if case.expected[0] != [19] for end in ends_met(case)]
        for office in range(4):
            for end in ('below 0', 'above 512', 'stays at 0', 'stays at 512', 'comes to 0', 'comes to 512'):
                self.assertIn((office, end), ends)
        for call in census.FEW:
            self.assertIn([call], [case.calls for case in BOARDS if not census_model.out_of_range(case.board)])
        damaged = [case.calls[0] for case in BOARDS if case.expected[0] == [22] and case not in items]
        damaged = [(call[0], census_model.Written().made(call)) for call in damaged]
        for kind in (('take', 19), ('table', 20), ('count', 21)):
            self.assertGreater(damaged.count(kind), 2, kind)
        self.assertGreater(sum(case.expected != [] for case in ROWS), 80)
        self.assertGreater(sum(len(case.words) == 60 and case.expected == [] for case in ROWS), 90)
        for first, last in ((0, 512), (512, 532), (532, 536)):
            outside = [case for case in RANGES if not case.expected and any(case.words[k] > census.cb.MOST[k] for k in range(first, last))]
            self.assertGreater(len(outside), 20, first)
        numbers = [census_model.Written().made(call) for case in OWED for call in case.calls]
        for number in (0, 19, 20, 21):
            self.assertGreater(numbers.count(number), 5, number)
        self.assertGreater(sum(any(case.expected[census_model.COUNTS :]) for case in OWED), 12)
        for cases in (BOARDS, ROWS, RANGES):
            self.assertGreater(len({str(case) for case in cases}), 0.95 * len(cases))


def ends_met(case):
    """The offices whose count an item of a bed and a state that there are would take out of its range, or leave at an end of it."""
    bed, state = divmod(case.calls[0][1], 8)
    table = census_model.table_on(case.board)
    for office, count in enumerate(case.board[census_model.COUNTS :]):
        change = table[office, state] - table[office, case.board[bed]]
        if count + change in (-1, 513):
            yield office, 'below 0' if change < 0 else 'above 512'
        elif count + change in (0, 512):
            yield office, f'{"comes to" if change else "stays at"} {count + change}'


def shared(case):
    """How much the recordings of a comparison share at their beginning."""
    begin = case.expected[1][1]
    return 'nothing' if begin == 0 else 'some' if begin < min(len(case.first), len(case.second)) else 'all of the shorter'


def fault(case):
    """What is wrong with an order: the first of these that is."""
    calls = jm.calls_of(case.history)
    if not set(case.numbers) <= set(range(1, len(calls) + 1)):
        return 'range'
    if len(set(case.numbers)) < len(case.numbers):
        return 'twice'
    if any(call.end and number not in case.numbers for number, call in enumerate(calls, 1)):
        return 'ended'
    order = [calls[number - 1] for number in case.numbers]
    if any(0 < b.end < a.start for k, a in enumerate(order) for b in order[k + 1 :]):
        return 'time'
    return 'none' if case.expected else 'queue'


def stored_steps(case):
    """The number of steps that the thread of a single step has stored; None if it has none, or is none."""
    if case.call[0] != 's':
        return None
    return dict(enumerate(case.words)).get(im.CONTENTS + im.THREAD_WORDS * case.call[1] + im.STEPS)


def single_steps(count):
    """(producer, phase, reply) of the single steps with this stored number. Of a reply the word alone, but a refusal with
    its number."""
    found = set()
    for words, call, (reply, _, _) in (case for case in SINGLES if stored_steps(case) == count):
        phase = words[im.CONTENTS + im.THREAD_WORDS * call[1]]
        found.add((call[1] > 0, phase, *(reply if reply[0] == 'refused' else reply[:1])))
    return found


def lack(case):
    """Whether the buffer of a single step that would end a drain fits; None for other calls."""
    reply = case.expected[0]
    if reply[0] != 'drained' and reply != ('refused', 15):
        return None
    buffer, named = case.call[2:]
    return 'fits' if reply[0] == 'drained' else 'ends before' if named > len(buffer) else 'too short'


def at_its_end(words, position):
    """Whether a position is the end of the head record."""
    return position == words[0] * words[dc.record_at(words, words[im.HEAD_RECORD]) + im.PLACE]


def marked(words):
    """Where a mark brings the head."""
    position = words[im.HEAD_POSITION]
    if words[im.CONTENTS + im.FOUND_POSITION] != position or not at_its_end(words, position + 1):
        return 'elsewhere'
    return 'end of the tail record' if words[im.HEAD_RECORD] == words[im.TAIL_RECORD] else 'end of another'


def crossed(words):
    """What the cursor's record is, if the cursor stands at its end."""
    cursor = words[im.CONTENTS + im.CURSOR]
    if not cursor or words[im.CONTENTS + im.CURSOR_POSITION] != words[0] * words[dc.record_at(words, cursor) + im.PLACE]:
        return None
    if cursor == words[im.TAIL_RECORD]:
        return 'tail record'
    if cursor == words[im.HEAD_RECORD]:
        return 'head record'
    before, following = (words[dc.record_at(words, cursor) + k] for k in (im.PREV, im.NEXT))
    lands = following and 0 <= words[0] * (words[dc.record_at(words, following) + im.PLACE] - 1) <= words[3]
    return 'another' if before and lands else 'prev none' if lands else 'elsewhere'


def keeps_some(words):
    """Whether some retired record is not free, though nobody holds it."""
    retired = {r for r, use in enumerate(im.record_parts(words, im.USE)) if use == im.USE_RETIRED}
    return bool(retired - im.held_records(words) - set(im.free_records(words)))


def moved(words):
    """Where the first position of the head record's next is."""
    following = words[dc.record_at(words, words[im.HEAD_RECORD]) + im.NEXT]
    if not following:
        return 'next is none'
    first = words[0] * (words[dc.record_at(words, following) + im.PLACE] - 1)
    return 'below 0' if first < 0 else 'above M' if first > words[3] else 'within M'


def claims_one(words, call, reply):
    """Whether a call with this reply claimed a record."""
    return reply[0] == 'going' and call[1] > 0 and words[im.CONTENTS + im.THREAD_WORDS * call[1]] in (4, 10)


def in_range_with(words, k, word):
    """Whether a store is in range with another word k."""
    return im.in_range(words[:k] + [word] + words[k + 1 :])


def in_range_in_phase_2(words):
    """Whether some producer is in phase 1, and the store is in range with it in phase 2."""
    first = im.CONTENTS + im.THREAD_WORDS
    if len(words) < im.CONTENTS or not im.sizes_allowed(words[:4]):
        return False
    owns = range(first, min(first + im.THREAD_WORDS * words[2], len(words)), im.THREAD_WORDS)
    return any(words[own] == 1 and in_range_with(words, own, 2) for own in owns)


def places(words):
    """The places of the linked records of a store."""
    B, N, P, _ = words[:4]
    size = im.record_words(B)
    first = im.CONTENTS + im.THREAD_WORDS * (P + 1)
    records = [words[first + r * size :][: im.RECORD_HEAD] for r in range(N)]
    return [record[im.PLACE] for record in records if record[im.USE] == im.USE_LINKED]


if __name__ == '__main__':
    unittest.main()
