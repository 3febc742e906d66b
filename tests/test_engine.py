"""The engine through its C interface, word for word against the independent model."""

import collections
import itertools
import random
import subprocess
import unittest

import claim_stores
import drain_stores
import engine_library
import fold_stores
import intake_model as model
import judge_library
import judge_model
import leaving_stores
import step_counts
from archives import ROOT, archive
from drain_stores import lent_step
from test_drain import FORTY, drain, drained, ends_of_drains, forty_waiting, late_set_run, lend, overtaken_run, passing_run
from test_model import ACCEPTED_STEPS, LENT, LET_GO, OK, accepted_steps, going, let_go_run, random_store

LARGEST = (64, 64, 16, 1000000)


def random_sizes(rng):
    return rng.choice([(2, 2, 1, 9), (2, 2, 2, 12), (2, 3, 3, 20), (3, 4, 4, 30), (4, 3, 5, 40), (5, 5, 16, 64), (8, 6, 7, 50)])


def random_call(rng, producers, words=()):
    """A start or a step, sometimes of a thread that there is not, on these words. A step is lent a buffer."""
    thread = rng.randint(0, producers) if rng.random() < 0.97 else rng.choice([producers + 1, 17, 2**31, 2**32 - 1])
    draw = rng.random()
    if draw < 0.12:
        return ('e', thread, rng.choice([0, 1, 7, 2**32 - 1, rng.getrandbits(32)]))
    if draw < 0.15:
        return ('d',)
    if draw < 0.18:
        return ('drain', rng.choice(drain_stores.LIMITS))
    return lent_step(rng, words, thread)


def kind(reply):
    """What a reply is counted as: a refusal by its number."""
    return reply[:2] if reply[0] == 'refused' else reply[0]


def damaged(rng, words):
    """The store with a few words changed, or of another length, or all at random."""
    words = list(words)
    draw, steps = rng.random(), rng.randrange(23, words[5], 8)
    if draw < 0.05:
        words[steps] = rng.choice(step_counts.EDGES)
    elif draw < 0.70:
        for _ in range(rng.choice([1, 1, 1, 2, 3])):
            at = rng.randrange(len(words))
            words[at] = rng.choice([0, 1, 2, 3, 4, words[at] + 1, max(words[at], 1) - 1, rng.randrange(70), 2**32 - 1, 500002, 500003]) % 2**32
    elif draw < 0.80:
        words = words[: rng.randrange(len(words) + 1)]
    elif draw < 0.90:
        words = [rng.choice([0, 0, 1, 2, 3, rng.getrandbits(32)]) for _ in range(rng.randrange(120))]
    else:
        words += [rng.getrandbits(32) for _ in range(rng.randrange(1, 9))]
    return words


REPLIES = ('ok', 'going', 'end', 'empty', 'item', 'drained')


class Both:
    """Calls of the engine and of the model, which must be the same."""

    @classmethod
    def setUpClass(cls):
        cls.library = engine_library.load()

    def both(self, engine, words, call):
        """One call on both; replies, reply buffers, the words lent to a step and all words must be the same. A list that was
        lent has them afterwards."""
        before, made = list(words), drain_stores.fresh(call)
        want = model.do(words, made)
        number, reply = engine_library.expected(want)
        self.assertEqual(engine.call(call), number, (before, call))
        self.assertEqual(list(engine.reply), reply, (before, call))
        self.assertEqual(engine.words(), words, (before, call))
        if want[0] == 'refused':
            self.assertEqual((words, made), (before, drain_stores.fresh(call)))
        if made is not call:
            self.assertEqual(engine.buffer, made[2], (before, call))
            if isinstance(call[2], list):
                call[2][:] = made[2]
        return want

    def on(self, words, call):
        """One call of both on words that are lent for it alone."""
        return self.both(engine_library.Engine(self.library, words), words, call)


class Beside:
    """A store just opened, for the engine and for the model, as a recorder has it."""

    def __init__(self, test, *sizes):
        self.test, self.words = test, [1] * model.needed_words(*sizes[:3])
        self.engine = engine_library.Engine(test.library, self.words)
        model.open_store(self.words, *sizes)
        test.assertEqual((self.engine.open(sizes), self.engine.words()), (0, self.words))

    def call(self, call):
        return self.test.both(self.engine, self.words, call)

    def run(self, calls):
        return [self.call(call) for call in calls]


class Differential(Both, unittest.TestCase):
    def test_schedules(self):
        """A phase, a reply or a word that differs from the rules on stores that only the engine has written."""
        rng, seen, phases = random.Random(11), collections.Counter(), collections.Counter()
        while sum(seen.values()) < 170000:
            sizes = random_sizes(rng)
            words = [rng.getrandbits(32) for _ in range(model.needed_words(*sizes[:3]) + rng.randrange(3))]
            engine = engine_library.Engine(self.library, words)
            self.assertEqual(model.open_store(words, *sizes), ('ok',))
            self.assertEqual(engine.open(sizes), 0)
            self.assertEqual(engine.words(), words)
            for _ in range(rng.randrange(100, 1200)):
                call = random_call(rng, sizes[2], words)
                steps = call[0] == 's' and call[1] <= sizes[2]
                phase = steps and (call[1] > 0, words[16 + 8 * call[1]])
                reply = self.both(engine, words, call)
                seen[kind(reply)] += 1
                phases[phase] += reply[0] != 'refused'
        for known in (*REPLIES, *(('refused', number) for number in (4, 5, 6, 7, 8, 14, 15))):
            self.assertGreaterEqual(seen[known], 50, seen)
        for known in [(False, phase) for phase in range(1, 9)] + [(True, phase) for phase in range(2, 12)]:
            self.assertGreaterEqual(phases[known], 50, phases)

    def test_damaged_stores(self):
        """A damaged store that is followed and not refused, or refused with another number, or changed by a refusal."""
        rng, seen = random.Random(12), collections.Counter()
        while sum(seen.values()) < 45000:
            sizes = random_sizes(rng)
            run = model.Recorder(*sizes)
            for _ in range(rng.randrange(200)):
                run.call(drain_stores.fresh(random_call(rng, sizes[2], run.words)))
            for _ in range(60):
                words = damaged(rng, run.words)
                seen[kind(self.on(words, random_call(rng, sizes[2], words)))] += 1
        for number in (2, 3, 4, 5, 7, 9, 14):
            self.assertGreaterEqual(seen['refused', number], 50, seen)

    def test_stores_in_range(self):
        """A phase or a start that goes wrong on words in range that no engine has written: links, indexes, numbers, word 11."""
        rng, seen, starts = random.Random(15), collections.Counter(), collections.Counter()
        for _ in range(5000):
            store = random_store(rng)
            steps = [lent_step(rng, store, t) for t in range(store[2] + 1)]
            for call in [('d',), ('drain', rng.choice(drain_stores.LIMITS))] + steps + [('e', t, 7) for t in range(store[2] + 1)]:
                words = list(store)
                reply = kind(self.on(words, call))
                seen[reply] += 1
                starts[reply] += call[0] == 'e'
        for known in (*REPLIES, *(('refused', number) for number in (*range(4, 10), 14, 15))):
            self.assertGreaterEqual(seen[known], 50, seen)
        for known in ('ok', *(('refused', number) for number in (4, 5, 6, 9))):
            self.assertGreaterEqual(starts[known], 50, starts)

    def test_starts(self):
        """A start of an enqueue that takes no position or another one, that is not its call's first step, that looks at starts or tail
        otherwise than in the table's order, or that leaves the number of steps out of its reply (document 02, U8)."""
        for tail, starts, busy in itertools.product((0, 1, 8, 9), (0, 1, 8, 9), (0, 2)):
            words = [0] * model.needed_words(2, 2, 2)
            model.open_store(words, 2, 2, 2, 9)
            words[6], words[10], words[24] = tail, starts, busy
            expected = ('refused', 5) if busy else ('refused', 6) if starts == 9 else ('refused', 9) if tail == 9 else ('ok', starts + 1, 1)
            after = list(words)
            self.assertEqual(self.on(after, ('e', 1, 7)), expected)
            if expected[0] == 'ok':
                words[6], words[10], words[24:32] = tail + 1, starts + 1, [2, starts + 1, 7, tail, 0, 0, 0, 1]
            self.assertEqual(after, words)

    def test_phase_1_of_a_producer(self):
        """A producer's phase 1 that is let through, by a start or a step of any thread, whatever the other words of its thread hold."""
        rng, seen = random.Random(25), collections.Counter()
        for _ in range(1000):
            words = random_store(rng)
            own = 16 + 8 * rng.randint(1, words[2])
            words[own] = 1
            if rng.random() < 0.5:
                words[own + 3 : own + 7] = [0] * 4  # as it was before U8
            call = random_call(rng, words[2], words)
            seen[call[0]] += 1
            self.assertEqual(self.on(words, call), ('refused', 3))
        self.assertGreater(min(seen[name] for name in ('e', 'd', 'drain', 's')), 10)

    def test_numbers_of_steps(self):
        """A number of steps that is not kept, or not replied, or that leaves its range: in every phase of stores that the
        engine has written, with every reply, from each number at the edges. 8 comes before 9, and both leave the four
        words of the reply."""
        stores = accepted_steps()
        self.assertEqual(set(stores), ACCEPTED_STEPS)
        for (_, _, kind), (words, t) in stores.items():
            for steps in step_counts.EDGES:
                reply = self.on(step_counts.with_steps(words, t, steps), ('s', t, *LENT))
                refusal = {model.MOST_STEPS: 9, model.MOST_STEPS + 1: 3}.get(steps)
                self.assertEqual((reply[0], reply[-1]), ('refused', refusal) if refusal else (kind, steps + 1))
        dry = model.Recorder(2, 2, 1, 9)
        dry.run([call for v, steps in enumerate((4, 6, 7, 5, 4)) for call in [('e', 1, v)] + [('s', 1)] * (steps - 1)])
        for steps, number in zip(step_counts.EDGES, (8, 8, 8, 8, 3)):
            self.assertEqual(self.on(step_counts.with_steps(dry.words, 1, steps), ('s', 1)), ('refused', number))

    def test_numbers_of_steps_of_idle_threads(self):
        """A number of an idle thread that is not looked at: of the one that is called, or of another."""
        for t, steps in itertools.product(range(3), step_counts.EDGES):
            words = [0] * model.needed_words(2, 2, 2)
            model.open_store(words, 2, 2, 2, 9)
            for call in (('d',), ('e', 1, 7), ('s', t)):
                reply = self.on(step_counts.with_steps(words, t, steps), call)
                self.assertEqual(reply == ('refused', 3), steps > 0)

    def test_claims(self):
        """A claim that takes another record than the next free one, or leaves word 11, or changes it and finds none."""
        rng, seen = random.Random(16), collections.Counter()
        for words in claim_stores.small(rng) + claim_stores.large(rng, 3000):
            seen[kind(self.on(words, ('s', 1)))] += 1
        for known in ('going', 'end', ('refused', 8)):
            self.assertGreaterEqual(seen[known], 50, seen)

    def test_claims_of_every_size(self):
        """A search that goes wrong with some number of records, from some record claimed last: that takes a digit past the
        last record's, misses one, or finds a record where none is free."""
        rng, found = random.Random(17), collections.Counter()
        for words in claim_stores.every_size(rng):
            N, last = words[1], words[model.LAST_CLAIMED]
            free = model.free_records(words)
            self.on(words, ('s', 1))
            took = 'none' if not free else 'the last' if free == [last - 1] else 'above' if words[model.LAST_CLAIMED] > last else 'past the end'
            found[N, last, took] += 1
        for N in range(2, 65):
            for last in range(1, N + 1):
                self.assertGreaterEqual(found[N, last, 'none'], 1)
                self.assertGreaterEqual(found[N, last, 'the last'], 1)
        self.assertGreaterEqual(found[64, 64, 'past the end'], 1)
        self.assertGreaterEqual(sum(n for (_, _, took), n in found.items() if took == 'above'), 1000)

    def test_feeders_go_on(self):
        """A feeder that meets 8 although the dequeue that took the head record's last item has ended, and no other was
        started (document 02, U2)."""
        self.assertEqual(let_go_run(Beside(self, 2, 2, 3, 99).call), LET_GO)

    def test_letting_go(self):
        """A mark that goes to phase 8 or not by another record than the head record; a phase 8 that follows no link, leaves
        the range, looks at the tail record, or loses its item."""
        rng, seen = random.Random(18), collections.Counter()
        for draw in 2 * [leaving_stores.marking, leaving_stores.leaving]:
            for words in draw(rng):
                for store in (words, drain_stores.draining(rng, words)):
                    seen[store[16], kind(self.on(list(store), lent_step(rng, store, 0)))] += 1
        for known in itertools.product((7, 8), ('going', 'item', 'drained', ('refused', 9), ('refused', 15))):
            self.assertGreaterEqual(seen[known], 10, seen)

    def test_folding(self):
        """A fold that is made or not by another record, by another word 12 or at another entry; that joins otherwise, follows no
        link, or leaves word 12 where the scan ends."""
        rng, seen = random.Random(22), collections.Counter()
        for draw in 2 * [fold_stores.crossing, fold_stores.going_on, fold_stores.reading]:
            for words in draw(rng):
                for store in (words, drain_stores.draining(rng, words)):
                    before = [store[16], store[12]]
                    reply = self.on(store, lent_step(rng, store, 0))
                    seen[(*before, store[12], kind(reply))] += 1
        known = [(3, 0, 1, 'going'), (3, 1, 1, 'going'), (3, 0, 0, 'going'), (4, 1, 0, 'going'), (4, 1, 1, 'going'), (4, 0, 0, 'going')]
        known += [(3, word, 0, reply) for word in (0, 1) for reply in ('empty', 'drained')]
        for each in known + [(phase, word, word, ('refused', 9)) for phase in (3, 4) for word in (0, 1)]:
            self.assertGreaterEqual(seen[each], 20, seen)

    def test_folds_of_runs(self):
        """A store on which one feeder has stopped for good, and whose records are folded: reply by reply and word by word."""
        rng, folds = random.Random(23), 0
        for sizes in ((2, 4, 2, 400), (2, 6, 3, 400), (3, 5, 3, 400), (4, 8, 4, 400)):
            beside = Beside(self, *sizes)
            beside.call(('e', 1, 1))
            for _ in range(2500):
                t = rng.choice((0, 0, 0, *range(2, sizes[2] + 1)))
                before = model.record_parts(beside.words, model.USE)
                start = ('e', t, 7) if t else rng.choice((('d',), ('drain', 3)))
                beside.call(lent_step(rng, beside.words, t) if beside.words[16 + 8 * t] else start)
                after = model.record_parts(beside.words, model.USE)
                folds += t == 0 and any(pair == (2, 3) for pair in zip(before, after))
        self.assertGreater(folds, 80)

    def test_words_11_to_15(self):
        """A word 11 of 0 or above N, a word 12 above 1, or of 1 where the consumer does not scan, or one of words 13 to 15 that is
        not zero, that is let through."""
        rng = random.Random(17)
        for _ in range(300):
            store = random_store(rng)
            wrong = [(11, 0), (11, store[1] + 1), (11, rng.randrange(65, 2**32)), (11, 2**32 - 1)]
            wrong += [(12, word) for word in (1, 2, 2**32 - 1) if word > 1 or store[16] not in (3, 4)]
            for at, word in wrong + [(at, word) for at in range(13, 16) for word in (1, 2**32 - 1)]:
                words = store[:at] + [word] + store[at + 1 :]
                self.assertEqual(self.on(words, random_call(rng, store[2])), ('refused', 3))

    def test_largest_store(self):
        """A bound or an address that fails only at the largest sizes."""
        rng = random.Random(13)
        words = [1] * (model.needed_words(*LARGEST[:3]) + 2)
        engine = engine_library.Engine(self.library, words)
        model.open_store(words, *LARGEST)
        self.assertEqual(engine.open(LARGEST), 0)
        for _ in range(2500):
            self.both(engine, words, random_call(rng, 16, words))
        edges = [0, 5, 11, 15, 16, 143, 151, 152, 155, *range(12694, 12701), 12825]
        for at in edges + [rng.randrange(12826) for _ in range(150)]:
            spoiled = list(words)
            spoiled[at] = 2**32 - 1
            self.on(spoiled, random_call(rng, 16))

    def test_open(self):
        """An open that takes sizes outside the limits, a short store, or writes past the store."""
        rng, seen = random.Random(14), collections.Counter()
        limits = [0, 1, 2, 3, 63, 64, 65, 2**32 - 1]
        for _ in range(3000):
            sizes = (rng.choice(limits), rng.choice(limits), rng.choice([0, 1, 2, 15, 16, 17]), rng.choice([0, 1, 9, 1000000, 1000001]))
            need = model.needed_words(*sizes[:3]) if max(sizes[:3]) < 70 else 100
            length = max(0, rng.choice([need, need - 1, need + 3, 0, 15, 16]))
            words = [rng.getrandbits(32)] * min(length, 13000)
            engine = engine_library.Engine(self.library, words)
            number, _ = engine_library.expected(model.open_store(words, *sizes))
            self.assertEqual(engine.open(sizes), number, sizes)
            self.assertEqual(engine.words(), words)
            seen[number] += 1
        self.assertEqual(set(seen), {0, 1, 2})
        self.assertGreaterEqual(min(seen.values()), 50, seen)


class Drains(Both, unittest.TestCase):
    """Drains of the engine (document 02, U5): test_drain.py's runs."""

    def opened(self, *sizes):
        return Beside(self, *sizes)

    def test_forty_items(self):
        """A drain that does not hand over all that wait, or hands over more or elsewhere."""
        beside, buffer = forty_waiting(self.opened), [7] * 100
        self.assertEqual(beside.run(drain(64) + lend(buffer, 125, named=3)), [OK] + going(1, 124) + drained(40, 125))
        self.assertEqual(buffer, [7] * 3 + FORTY + [7] * 17)

    def test_fronts(self):
        """A drain that goes on where its first front was not set, though the rescan returned to the head; that scans once it has
        an item; or that ends at a handled entry or a record's end."""
        self.assertEqual(late_set_run(self.opened), (going(3, 6) + drained(1, 7), [1, 70]))
        self.assertEqual(overtaken_run(self.opened), drained(1, 4))
        self.assertEqual(passing_run(self.opened), ([1, 70, 3, 72, 4, 73], 12))

    def test_ends(self):
        """An end in some phase that takes a buffer too short by a word, or ending before the named one, or that does not take one
        that fits, from any named word."""
        seen = collections.Counter()
        for (phase, items), words in ends_of_drains().items():
            for length, named in itertools.product(range(2 * items + 4), (0, 1, 2, 3, 2 * items, 2**31, 2**32 - 1)):
                reply = self.on(list(words), ('s', 0, tuple(range(length)), named))
                self.assertEqual(reply[:2], ('drained', items) if length >= named + 2 * items else ('refused', 15))
                seen[phase, reply[0]] += 1
        for known in itertools.product((1, 2, 3, 7, 8), ('drained', 'refused')):
            self.assertGreaterEqual(seen[known], 10, seen)

    def test_limits(self):
        """A limit that is off by one, or looked at before the consumer."""
        for limit in (0, 1, 64, 65, 2**31, 2**32 - 1):
            beside = self.opened(2, 2, 1, 9)
            allowed = 1 <= limit <= 64
            self.assertEqual(beside.call(('drain', limit)), OK if allowed else ('refused', 14))
            self.assertEqual(beside.call(('drain', limit)), ('refused', 5 if allowed else 14))

    def test_area(self):
        """A word of the drain area out of its range that is let through, or one in range that is not."""
        rng, seen = random.Random(19), collections.Counter()
        for _ in range(1500):
            words = random_store(rng)
            at = len(words) - 130 + rng.choice((0, 1, 2, 3, rng.randrange(130)))
            words[at] = rng.choice((0, 1, 2, 63, 64, 65, 2**32 - 1))
            seen[self.on(words, lent_step(rng, words, 0)) == ('refused', 3)] += 1
        self.assertGreater(min(seen[True], seen[False]), 300)

    def test_histories(self):
        """A history with drains, by the words before and after each call, that the compiled judge does not find explained, or finds so
        by an order that the compiled check turns down."""
        library, rng, met = judge_library.load(), random.Random(20), collections.Counter()
        for _ in range(18):
            beside, history = self.opened(2, rng.randint(2, 4), 3, 60), model.History()
            for _ in range(300):
                t = rng.choice((0, 0, 0, 1, 2, 3))
                call = lent_step(rng, beside.words, t)
                if not beside.words[16 + 8 * t]:
                    call = ('e', t, 7) if t else rng.choice((('d',), ('drain', 2), ('drain', 64)))
                before = list(beside.words)
                reply = beside.call(call)
                history = model.told(history, call, reply, before, beside.engine.words())
                words = judge_model.flatten(history)
                judged = judge_library.judge_with_room(library, words)
                self.assertEqual(judged.word, 'explained')
                self.assertEqual(judge_library.check(library, words, judged.numbers()), 'yes')
                met[reply[0]] += 1
        self.assertGreater(min(met['drained'], met['item'], met['empty']), 30)


class Host(unittest.TestCase):
    def make(self, target):
        return subprocess.run(['make', '-s', '-C', ROOT / 'host', target], capture_output=True, text=True)

    def test_host(self):
        """A host that does not build without warnings, that sees a producer's items out of order, by dequeues or by drains, or a
        number of steps that is not its own count."""
        archive('engine')
        done = self.make('run')
        self.assertEqual(done.returncode, 0, done.stderr)
        self.assertRegex(done.stdout, r'(?m)^longest enqueue \d+ steps, longest dequeue \d+ steps, longest drain \d+ steps$')
        self.assertRegex(done.stdout, r"(?m)^8000 items received, each producer's in its order; \d{3,} of them by \d{2} drains;")

    def test_host_sanitized(self):
        """An access outside the lent memory, or undefined behaviour, at the boundary."""
        archive('engine')
        done = self.make('sanitized')
        self.assertEqual(done.returncode, 0, done.stderr)
        self.assertIn("800 items received, each producer's in its order", done.stdout)


if __name__ == '__main__':
    unittest.main()
