"""The invariants, demand 3, numbers of steps and measures on reachable states, and that the checks themselves can fail."""

import random
import unittest

import explore
import intake_model as im
import invariants
import judge_model as jm
import measures
from intake_model import EMPTY, HANDLED, SET, USE_RETIRED
from test_drain import DRAINING, AsksForRoomEarly
from test_fold import FOLDING
from test_model import COUNTING, LETTING_GO, STARTING, TRAPS, ShiftsOnlyAfterOwnLink


def held_in(v, first, last):
    return [p.held for p in v.in_phases(first, last)]


def holds_retired(v, first, last):
    return any(v.use[r] == USE_RETIRED for r in held_in(v, first, last))


def set_behind_cursor(v):
    return v.set_positions(v.consumer.cursor_position)


def free_at_claim(v):
    """The free records where a producer is about to claim one; elsewhere none."""
    return im.free_records(v.words) if v.in_phases(4, 4) or v.in_phases(10, 10) else []


def last_claimed(v):
    return v.words[im.LAST_CLAIMED] - 1


# What an exploration has to meet, or it shows little.
SITUATIONS = {
    'a producer goes back': lambda v: v.in_phases(7, 7),
    'a producer that went back sets index 1': lambda v: any(p.back and p.L % v.B == 1 for p in v.in_phases(9, 9)),
    'a producer in 3 to 6 holds a retired record': lambda v: holds_retired(v, 3, 6),
    'a producer in 11 holds a retired record': lambda v: holds_retired(v, 11, 11),
    'a link is lost in 5': lambda v: any(v.next[r] is not None for r in held_in(v, 5, 5)),
    'a link is lost in 11': lambda v: any(v.next[r] is not None for r in held_in(v, 11, 11)),
    'no record is free in 4': lambda v: v.in_phases(4, 4) and not im.free_records(v.words),
    'no record is free in 10': lambda v: v.in_phases(10, 10) and not im.free_records(v.words),
    'a claim goes past the end': lambda v: free_at_claim(v) and im.next_free(v.words) < last_claimed(v),
    'a claim passes over a lower free record': lambda v: im.next_free(v.words) in free_at_claim(v)[1:],
    'a claim passes over the record claimed last': lambda v: last_claimed(v) in free_at_claim(v)
    and len(free_at_claim(v)) > 1,
    'a claim takes the record claimed last': lambda v: free_at_claim(v) == [last_claimed(v)],
    'a record is linked for the second time': lambda v: v.hi > v.N,
    'the tail record lags': lambda v: v.tp < v.hi,
    'the head waits in 1 at the end of a record to be left': lambda v: v.consumer.phase == 1
    and v.hp == v.B * v.lo
    and v.lo < v.tp,
    'the head record is left in 8': lambda v: v.consumer.phase == 8,
    'a producer holds the record that is left in 8': lambda v: v.consumer.phase == 8
    and v.head_record in held_in(v, 2, 11),
    'no record is free in 4, and one will be after 8': lambda v: v.consumer.phase == 8
    and v.in_phases(4, 4)
    and not im.free_records(v.words)
    and v.head_record not in held_in(v, 2, 11),
    'an enqueue ends between the mark and the reply': lambda v: v.consumer.phase == 8
    and v.kept.ended != v.kept.before_dequeue,
    'nothing but a dequeue is under way, and its item is neither left nor told': lambda v: untold_alone(v),
    'the scan stands at a record\'s end': lambda v: v.consumer.phase == 3 and cursor_at_end(v),
    'the rescan stands at a record\'s end': lambda v: v.consumer.phase == 5 and cursor_at_end(v),
    'an entry is set behind the scan': lambda v: v.consumer.phase == 4 and set_behind_cursor(v),
    'an entry is set behind the rescan': lambda v: v.consumer.phase == 5 and set_behind_cursor(v),
    'an item is found past an empty entry': lambda v: v.consumer.phase == 7 and v.state_at(v.hp) == EMPTY,
    'an item is found past a set entry': lambda v: v.consumer.phase == 7 and v.consumer.found_position > v.hp
    and v.state_at(v.hp) == SET,
}


# With drains.
DRAINS = {
    'a drain has no item in 1': lambda v: drains_in(v, 1) and v.count == 0,
    'a drain goes on to a set front': lambda v: goes_on(v) and v.state_at(v.hp) == SET,
    'a drain passes a handled front': lambda v: goes_on(v) and v.hp < v.B * v.lo and v.state_at(v.hp) == HANDLED,
    'a drain leaves a record in 1': lambda v: goes_on(v) and v.hp == v.B * v.lo and v.lo < v.tp,
    'a drain ends at an empty front': lambda v: goes_on(v) and v.hp < v.B * v.lo and v.state_at(v.hp) == EMPTY,
    'a drain ends at the tail record\'s end': lambda v: goes_on(v) and v.hp == v.B * v.lo and v.lo == v.tp,
    'a drain ends with an item in 7': lambda v: drains_in(v, 7) and v.count == v.limit - 1,
    'a drain ends at its limit in 8': lambda v: drains_in(v, 8) and v.count == v.limit and not v.scanned,
    'a drain goes on from 8': lambda v: drains_in(v, 8) and v.count < v.limit and not v.scanned,
    'a drain that came through the scan ends in 7': lambda v: drains_in(v, 7) and v.scanned and v.limit > 1,
    'a drain that came through the scan ends in 8': lambda v: drains_in(v, 8) and v.scanned and v.limit > 1,
    'the rescan of a drain returned to the head': lambda v: drains_in(v, 7)
    and v.scanned
    and v.consumer.found_position == v.hp,
    'an enqueue ends after the last mark of a drain': lambda v: goes_on(v) and v.kept.ended != v.kept.before_dequeue,
    'an enqueue has ended after the last mark of a drain and is behind an empty front': lambda v: goes_on(v)
    and v.state_at(v.hp) == EMPTY
    and any(v.is_ended(v.own[p]) for p in v.set_positions()),
    'no record is free in 4, and a drain is at its items': lambda v: v.count > 0
    and v.in_phases(4, 4)
    and not im.free_records(v.words),
}


# With folds.
FOLDS = {
    'two records are folded': lambda v: len(v.gap) > 1,
    'the next step folds': lambda v: v.words[im.ALL_HANDLED] and v.consumer.phase == 3 and cursor_at_end(v) and v.place[v.consumer.cursor] < v.tp,
    'the cursor meets an empty entry and folds nothing': lambda v: v.words[im.ALL_HANDLED]
    and v.consumer.phase == 4
    and v.state_at(v.consumer.cursor_position) == EMPTY,
    'the tail record has been read whole and is not folded': lambda v: v.words[im.ALL_HANDLED]
    and v.consumer.phase == 3
    and cursor_at_end(v)
    and v.place[v.consumer.cursor] == v.tp,
    'a producer in 7 holds a folded record': lambda v: holds_folded(v, 7, 7),
    'a producer in 2 holds a folded record': lambda v: holds_folded(v, 2, 2),
    'a producer in 3 to 6 holds a folded record': lambda v: holds_folded(v, 3, 6),
    'a producer in 10 or 11 holds a folded record': lambda v: holds_folded(v, 10, 11),
    'a retired record is kept, and nobody holds it': lambda v: kept_retired(v),
    'a way back leads over two retired records': lambda v: any(v.use[r] == v.use[v.prev[r]] == USE_RETIRED for r in held_in(v, 7, 7)),
    'a record that was folded is linked anew': lambda v: v.gap and v.hi > v.N,
    'the rescan lands on found': lambda v: v.consumer.phase == 5 and cursor_at_end(v) and lands_on(v, v.consumer.found_position),
    'the head leaves its record over a gap': lambda v: v.consumer.phase in (1, 8) and v.hp == v.B * v.lo and v.lo + 1 in v.gap,
}


def holds_folded(v, first, last):
    return any(v.use[r] == USE_RETIRED and v.place[r] in v.gap for r in held_in(v, first, last) if r is not None)


def kept_retired(v):
    retired = {r for r in range(v.N) if v.use[r] == USE_RETIRED}
    return retired - im.held_records(v.words) - set(im.free_records(v.words))


def lands_on(v, position):
    """Whether the cursor's next record begins at a position."""
    return v.B * (v.place[v.next[v.consumer.cursor]] - 1) == position


def drains_in(v, phase):
    return v.limit > 0 and v.consumer.phase == phase


def goes_on(v):
    """A drain stands at the front with an item."""
    return drains_in(v, 1) and v.count > 0


def untold_alone(v):
    """A call that has ended and was not taken by what was told is not left, and only a dequeue is under way."""
    if v.consumer.phase != 8 or v.limit > 0 or v.in_phases(2, 11):
        return False
    untaken = set(v.calls_in(v.told.ended & ~v.told.taken))
    left = {call for call, _ in im.items_left(v.words)}
    return untaken == left | {v.consumer.item_call} != left


def cursor_at_end(v):
    return v.consumer.cursor_position == v.B * v.place[v.consumer.cursor]


class Reachable(unittest.TestCase):
    """The intake as it is."""

    def test_every_state_of_small_cases(self):
        """A clause that fails on a reachable state, a reply 3 or 9, a number of steps or a measure that is wrong at some
        call, or an exploration that meets too little."""
        every, met = SITUATIONS | DRAINS | FOLDS, set()

        def note(v):
            met.update(name for name in every.keys() - met if every[name](v))
            return True

        clauses = invariants.CLAUSES | {'situations': note}
        for case in explore.SMALL_CASES + explore.LATER_CASES:
            result = explore.explore(*case, clauses=clauses)
            self.assertIsNone(result.violation, case)
            self.assertTrue(result.whole)
        self.assertEqual(set(every) - met, set())

    def test_every_short_list_of_calls(self):
        """A history that is not linearizable, or items left that no linearization leaves, by all orders; or what is kept
        and what was told differ otherwise than by an item in phase 8."""
        for case in explore.HISTORY_CASES:
            self.assertIsNone(explore.explore_histories(*case).violation, case)

    def test_an_item_that_is_neither_left_nor_told(self):
        """Demand 3 read without "no call under way": here nothing but a dequeue in phase 8 is. No order without that
        dequeue leaves the items left; one that completes it does."""
        calls = explore.THREE_IN + explore.dequeue(3) * 2
        packed, ghost = explore.state_after(explore.open_words(2, 2, 1, 4), calls, im.Intake, invariants.listed())
        left = tuple(im.items_left(explore.unpacked(packed)))
        self.assertEqual((packed[im.CONTENTS], left), (8, ((3, 103),)))
        self.assertEqual(jm.linearizations_leaving(ghost.told[:-1]), {((2, 102), (3, 103))})
        self.assertIn(left, jm.linearizations_leaving(ghost.told))

    def test_random_runs(self):
        """A clause, demand 3, a number of steps or a measure that fails with larger records, more of them, more producers,
        or a stopped one."""
        accepted, _, violation = explore.runs_of(explore.random_run, range(explore.RANDOM_RUNS))
        self.assertIsNone(violation)
        self.assertGreater(accepted, 45_000)

    def test_folding_runs(self):
        """The same where records are folded, while producers stand still for long or for good, in phase 7 too."""
        accepted, folds, violation = explore.runs_of(explore.folding_run, range(explore.FOLDING_RUNS))
        self.assertIsNone(violation)
        self.assertGreater(accepted, 25_000)
        self.assertGreater(folds, 150)

    def test_stalled_runs(self):
        """A call that lasts longer than its bound, or a measure that is wrong at some call, while producers stand still
        for long or for good and others meet 8."""
        accepted, met, violation = explore.stalled_runs(range(explore.STALLED_RUNS))
        self.assertIsNone(violation)
        self.assertGreater(accepted, 50_000)
        self.assertGreater(met, 20_000)


class OneCallLate(im.Intake):
    """A wrong engine that gives the item's call number as one less."""

    def read_item(self):
        reply = super().read_item()
        self.put(im.ITEM_CALL, max(1, self.mine(im.ITEM_CALL) - 1))
        return reply


class AnswersEmptyUnread(im.Intake):
    """A wrong engine whose dequeue replies empty before it reads."""

    def front(self):
        return self.answer_empty()


class Sensitivity(unittest.TestCase):
    """The checks fail where they should."""

    def test_wrong_engines_are_caught(self):
        """An exploration blind to a trap of document 01."""
        self.assertEqual([trap for trap in TRAPS if not wrong_engine_is_caught(trap)], [])

    def test_endless_calls_are_caught(self):
        """Measures or a bound blind to a call that goes round for ever: that of a producer while the linker is stopped."""
        self.assertEqual(explore.explore(2, 2, 2, 4, engine=ShiftsOnlyAfterOwnLink).violation[1], ['measure: not lowered'])
        self.assertEqual(wrong_lengths(im.Intake), set())
        self.assertEqual(wrong_lengths(ShiftsOnlyAfterOwnLink), {'measure: not lowered', 'steps past the bound, 3'})

    def test_wrong_counts_are_caught(self):
        """Explorations or runs blind to a number of steps that leaves some out or begins again."""
        for engine in COUNTING:
            violations = (
                explore.explore(2, 2, 1, 4, engine=engine).violation,
                explore.runs_of(explore.random_run, range(5), engine)[2],
                explore.stalled_runs(range(5), engine)[2],
            )
            for violation in violations:
                self.assertTrue(violation[-1][0].startswith('steps: '), (engine, violation))

    def test_wrong_starts_are_caught(self):
        """An exploration blind to a start that takes no position, takes another one, leaves tail, or is no step. One that also loads
        is linearizable; its own run shows it (test_model.py)."""
        caught = {engine.__name__: what_is_wrong(engine) for engine in STARTING}
        self.assertEqual({name: bad and bad[0] for name, bad in caught.items()}, {
            'TakesNothing': 'measure: at a start',
            'LeavesTail': 'places: tail equals starts',
            'TakesTheNext': 'entries: empty in [hp, tail) has a producer in 2 to 9 there',
            'CountsFromZero': 'steps: the reply',
            'LoadsToo': None,
        })
        self.assertIn('producer 2-11: its call is L + 1', caught['TakesTheNext'])

    def test_wrong_ways_to_let_go_are_caught(self):
        """An exploration blind to a phase 8 that does not retire, that gives no item or another, or that leaves the
        tail record. Two others never stand in 8 and are linearizable; their own run shows them."""
        caught = {engine.__name__: what_is_wrong(engine) for engine in LETTING_GO}
        self.assertEqual(caught, {
            'RepliesAtTheEnd': None,
            'MovesAtTheMark': None,
            'KeepsTheRecord': ['list: has every record of use 2'],
            'GoesToTheFront': ['measure: not lowered'],
            'ForgetsTheItem': [
                'consumer 8: the item is that of the position before hp',
                'told 8: the item of a dequeue is the last one kept, and a dequeue is open since',
                'told 8: the item of a dequeue may be given now',
            ],
            'LeavesTheTailRecord': ['consumer 8: lo < tp'],
        })

    def test_wrong_drains_are_caught(self):
        """An exploration blind to a drain that scans though it has an item, that keeps an item late, that leaves its words, or
        that looks at its buffer early. Two others are linearizable and end; their own runs show them."""
        caught = {engine.__name__: what_is_wrong(engine, (2, 3)) for engine in DRAINING + (AsksForRoomEarly,)}
        self.assertEqual(caught, {
            'GoesOnAfterTheScan': None,
            'ScansForMore': ['measure: not lowered'],
            'StopsAtRecordEnds': None,
            'KeepsItLate': ['measure: not lowered'],
            'LeavesTheArea': ['ranges'],
            'AsksForRoomEarly': ['a buffer too short'],
        })

    def test_wrong_folds_are_caught(self):
        """An exploration blind to a fold that joins one way, cuts links, does not retire or leaves word 12, to one of a record with an
        empty entry, or to the old rule of free. An engine that never folds is safe, and no fold of the head record comes up; their
        own runs and stores show them (test_fold.py)."""
        caught = {engine.__name__: wrong_fold(engine) for engine in FOLDING}
        self.assertEqual(caught, {
            'NeverFolds': None,
            'FoldsTheHeadRecord': None,
            'FoldsWithoutWord12': 'entries: as the steps have written them',
            'FoldsPastAnEmptyEntry': "word 12: all handled from the first entry of the cursor's record to the cursor",
            'CutsItsLinks': 'records: a retired one has a next',
            'JoinsNextAlone': 'list: prev leads back, but from the head record',
            'JoinsPrevAlone': 'list: its records have use 2',
            'StaysLinked': 'list: has a record of each listed place, and of no other',
            'LeavesWord12': 'ranges',
            'FreesWhatIsNotHeld': 'held 7: a trail leads to L',
        })

    def test_wrong_answers_break_demand_3(self):
        """A check of demand 3 by all orders, or by the polynomial checks, that passes wrong answers."""
        for engine in (OneCallLate, AnswersEmptyUnread):
            self.assertIsNotNone(explore.explore_histories(2, 2, 1, 2, 20, engine=engine).violation)
            recorder = im.Recorder(2, 2, 1, 9, engine=engine)
            for v in range(2):
                recorder.run([('e', 1, v)] + [('s', 1)] * 5)
            recorder.run(([('d',)] + [('s', 0)] * 3) * 2)
            self.assertFalse(explore.demand_3_long(im.items_left(recorder.words), recorder.history))

    def test_each_clause_can_fail(self):
        """A clause that holds of every store: each fails on some damaged copy of a reachable state."""
        rng = random.Random(11)
        failed = {'ranges'} if invariants.CLAUSES['ranges'](out_of_range_view()) is False else set()
        states = list(reachable_states(rng, 40))
        for _ in range(40_000):
            words, ghost = rng.choice(states)
            damaged = damaged_words(rng, words), damaged_ghost(rng, ghost)
            if im.in_range(damaged[0]):
                failed.update(invariants.broken(*damaged))
            if len(failed) == len(invariants.CLAUSES):
                break
        self.assertEqual(set(invariants.CLAUSES) - failed, set())


def wrong_lengths(engine):
    """What is wrong with the lengths of calls where producer 2 stops between phases 5 and 6 and producer 3 needs the record
    that it has linked: that takes 8 of 30 steps."""
    words = explore.open_words(2, 2, 3, 4)
    lengths, wrong = measures.Lengths(words), set()
    calls = explore.enqueue(3, 1, 4) + explore.enqueue(1, 2, 3) + explore.enqueue(2, 3, 5) + explore.enqueue(3, 4, 30)
    for call in calls:
        before, (words, reply) = words, explore.after(words, call, engine)
        if reply[0] != 'refused':
            wrong.update(lengths.wrong(call, reply, before, words))
    return wrong


def what_is_wrong(engine, limits=()):
    """The clauses that the first bad state breaks, over the states of a case in which head records are left, with drains of
    these limits; None if all hold."""
    violation = explore.explore(2, 2, 1, 5, limits, engine=engine).violation
    return violation and violation[1]


def wrong_fold(engine):
    """The first clause that fails where records are folded."""
    for case in ((2, 4, 2, 6, (), explore.TO_FOLD), (2, 5, 3, 10, (), explore.WALK)):
        if violation := explore.explore(*case, engine=engine, limit=3_000).violation:
            return violation[1][0]
    violation = explore.runs_of(explore.folding_run, range(4), engine)[2]
    return violation and violation[-1][0]


def wrong_engine_is_caught(engine):
    if explore.explore(2, 2, 2, 4, engine=engine, limit=8_000).violation:
        return True
    return explore.runs_of(explore.random_run, range(40), engine)[2] is not None


def out_of_range_view():
    words = explore.open_words(2, 2, 1, 3)
    words[im.TAIL] = 4
    return invariants.View(words, invariants.Ghost())


def reachable_states(rng, runs):
    """States of random runs, words and ghost; of every fourth run, from a state on in which a record is to be folded."""
    for run in range(runs):
        first, ghost = explore.TO_FOLD + explore.dequeue(9) if run % 4 == 0 else [], invariants.Ghost()
        packed, ghost = explore.state_after(explore.open_words(2, 3, 3, 12), first, im.Intake, ghost)
        words = explore.unpacked(packed)
        for _ in range(120):
            call = rng.choice(list(explore.moves(words, (2, 3))))
            after, reply = explore.after(words, call, im.Intake)
            ghost, words = ghost.after(call, words, reply, after), after
            yield words, ghost


def damaged_words(rng, words):
    words = list(words)
    area = im.drain_at(*words[:3])
    for _ in range(rng.randint(0, 2)):
        # the words of the threads, and of the drain area those in use, are few, so hit them more often
        first, last = rng.choice(((im.TAIL, words[5]), (im.TAIL, area), (area, area + 6)))
        words[rng.randrange(first, last)] = rng.randint(0, rng.choice((3, 12)))
    return words


def damaged_past(rng, past):
    changes = {
        'ended': past.ended ^ 2 << rng.randrange(12),
        'taken': past.taken ^ 2 << rng.randrange(12),
        'values': past.values[1:],
        'before_dequeue': rng.randrange(2**13),
        'ended_before': tuple(rng.randrange(2**13) & ~1 for _ in past.ended_before),
        'good': False,
        'running': (),
        'last': None,
    }
    field = rng.choice(list(changes))
    return past._replace(**{field: changes[field]})


def damaged_ghost(rng, ghost):
    changes = {
        'own': tuple(rng.sample(ghost.own, len(ghost.own)))[rng.randint(0, 1) :] + (rng.randint(0, 13),),
        'kept': damaged_past(rng, ghost.kept),
        'told': damaged_past(rng, ghost.told),
        'entries': ghost.entries[:-1] + (rng.randint(0, 2),),
        'gap': ghost.gap + (rng.randint(1, 4),),
        'last': rng.randint(1, 6),
    }
    field = rng.choice([None, 'own', 'told', 'told', 'entries', 'gap', 'last', *['kept'] * 4])
    return ghost if field is None else ghost._replace(**{field: changes[field]})


if __name__ == '__main__':
    unittest.main()
