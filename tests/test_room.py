"""How long a store lasts (document 02, U6; docs/STEPS.md, "Room"): with a feeder that has stopped for good, and with hosts that
keep to the room rule. Smaller runs than those of dry_runs.py, whose figures the page has."""

import collections
import random
import unittest

import dry_runs
import intake_model as im
from dry_runs import Before, Between, Host, Narrower, RULES, figures, has_room, has_room_from_head, holds_retired, stopped_feeder
from longest_enqueue import Run
from test_model import opened

ENGINES = (Before, im.Intake, Narrower, Between)
MOST = 400  # enqueues


class StoppedFeeder(unittest.TestCase):
    """One feeder stops for good inside the store; the others and the worker go on, at most one item waits."""

    # By hand, B entries in each of N records. Before U6 the head stays at the position of a feeder that stopped in 2 to 9, so N
    # records fill up, that position aside. In 3 to 6 it holds one more, in 5 it has claimed another, and for 7 the others
    # had filled one record when it got there. In 10 and 11 its position is set, and the head goes on.
    # With folding the list is the head's record, the tail record and one linked ahead, however long the run. But the record
    # held in 3 to 6, in 7 (it is folded), in 10 and in 11 is retired, and document 02's rule keeps every older retired one, which
    # on a store in use for long is each that is not linked: of the two that are the other positions can still be filled.
    def expected(self, B, N, phase):
        room = {5: N - 2}.get(phase, N - 1 if phase in (3, 4, 6, 7) else N)
        before = MOST if phase >= 10 else B * room - 1
        document_02 = {2: MOST, 8: MOST, 9: MOST, 10: 2 * B - 2, 11: 2 * B - 2}.get(phase, 2 * B - 1)
        return [before, document_02, 2 * B - 1 if phase == 7 else MOST, MOST]

    def test_until_8(self):
        """A store that runs dry though its records can be folded, or that does not where a rule keeps them. Without folding
        it runs dry at N x B."""
        for B, N, P in ((2, 12, 3), (4, 12, 4)):
            for phase in range(2, 12):
                ended = [stopped_feeder((B, N, P), engine, phase, 3 * B * N, MOST) for engine in ENGINES]
                self.assertEqual(ended, self.expected(B, N, phase), (B, N, P, phase))

    def test_largest_host(self):
        """The same of the sizes of host/host.c, for a feeder that has started and not stepped."""
        self.assertEqual(stopped_feeder((8, 64, 16), Before, 2, 0, 2_000), 8 * 64 - 1)
        self.assertEqual(stopped_feeder((8, 64, 16), im.Intake, 2, 0, 2_000), 2_000)

    def test_few_records(self):
        """A list that grows though nobody waits: five records are enough."""
        self.assertEqual(stopped_feeder((2, 5, 3), im.Intake, 2, 0, MOST), MOST)
        run = Run(2, 5, 3)
        dry_runs.stop(run, 2)
        for _ in range(100):
            dry_runs.turn(run, 2)
            self.assertLessEqual(linked(run.words), 4)

    def test_rules_before(self):
        """`Before` that does otherwise than the model without folds: whole runs of few records, where nothing can be folded."""
        for seed in range(20):
            hosts = [Host((2, 2, 2), engine, seed, room=lambda words: True) for engine in (Before, im.Intake)]
            for host in hosts:
                for _ in range(400):
                    host.turn()
            self.assertEqual(hosts[0].run.calls, hosts[1].run.calls)
            self.assertEqual(hosts[0].words[:12], hosts[1].words[:12])


class Room(unittest.TestCase):
    """Hosts that start an enqueue only where there is room."""

    def test_dry_for_good(self):
        """What docs/STEPS.md says of document 02's rule, in small: a host that keeps to the room rule, either one, ends dry for good;
        with the rule before, and with the narrower ones, none does, and with the rule before none meets 8. A host that steps on
        whoever is in phase 4 or holds a retired record is never dry for good if it does so before each retirement, and that
        before the head's moves alone is not enough."""
        dry = 'document 02', 'document 02, careful before the head moves'
        for room in (has_room_from_head, has_room):
            for rule in dry:
                self.assertGreater(figures((2, 16, 3), rule, 6, 250, room=room).dry, 0, rule)
            for rule in RULES.keys() - set(dry):
                seen = figures((2, 16, 3), rule, 3, 200, room=room)
                self.assertEqual((seen.dry, rule == 'before U6' and seen.met), (0, 0), rule)

    def test_a_stopped_feeder(self):
        """A room rule that says no for good where a feeder has stopped, as that by positions does; one that lets the store run dry."""
        for stops in (2, 8, 9):
            for careful, room, goes_on in (('always', has_room, True), ('always', has_room_from_head, False)):
                host = Host((2, 16, 3), im.Intake, 1, careful, room, stops=stops)
                self.assertFalse(host.play(200))
                self.assertEqual(host.ended >= 200, goes_on)

    def test_claims_within_the_room(self):
        """A step in phase 4 that meets 8 with room, though nobody holds a retired record: threads stopped for long at random, and few
        records. With a retired record held it may meet 8."""
        rng, seen = random.Random(21), collections.Counter()
        while seen['within'] < 600 or min(seen['held'], seen['dry']) < 20:
            P = rng.randint(1, 3)
            B, N = rng.randint(2, 3), 2 * P + 3 + rng.randint(0, 3)
            words, stopped = opened(B, N, P, 400), [0] * (P + 1)
            for _ in range(rng.randrange(50, 900)):
                t = rng.randint(0, P) if rng.random() < 0.8 else rng.randint(1, P)
                if stopped[t]:
                    stopped[t] -= 1
                    continue
                if rng.random() < 0.02:
                    stopped[t] = rng.randrange(300)
                phase, room = words[16 + 8 * t], linked(words) + P <= N
                held = any(holds_retired(words, u) for u in range(1, P + 1))
                reply = im.do(words, ('s', t) if phase else ('e', t, 7) if t else ('d',))
                if t and phase == 4 and room and not held:
                    self.assertNotEqual(reply, ('refused', 8), (B, N, P))
                    seen['within'] += 1
                elif reply == ('refused', 8):
                    seen['held' if room else 'dry'] += 1

    def test_no_less_room_than_before(self):
        """A room rule that says no where that by positions says yes."""
        yes = more = 0
        for seed in range(12):
            host = Host((2 + seed % 3, 12 + seed, 3), im.Intake, seed, 'always')
            for _ in range(1500):
                host.turn()
                now, before = has_room(host.words), has_room_from_head(host.words)
                self.assertTrue(now or not before)
                yes, more = yes + before, more + (now and not before)
        self.assertGreater(min(yes, more), 500)


def linked(words):
    """How many records are linked."""
    return im.record_parts(words, im.USE).count(im.USE_LINKED)


if __name__ == '__main__':
    unittest.main()
