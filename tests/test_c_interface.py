"""What a C host rests on: the headers' names, sizes and guards, what the archives export, and how much stack the calls and programs take."""

import collections
import ctypes
import itertools
import pathlib
import random
import re
import resource
import shutil
import subprocess
import tempfile
import unittest

import dry_runs
import intake_model as im
import measures
from archives import ROOT, archive, program, shared
from engine_library import Engine, load
from intake_model import USE_LINKED
from longest_enqueue import Run

HERE = pathlib.Path(__file__).resolve().parent
HEADERS = {crate: ROOT / 'include' / f'{name}.h' for crate, name in (('engine', 'intake'), ('judge_c', 'judge'), ('comparison', 'recordings'), ('census', 'census'))}

# the papers' table, and what the reply words are to C
NUMBERS = {
    'INTAKE_OK': 0,
    'INTAKE_REFUSED_SIZES': 1,
    'INTAKE_REFUSED_SHORT': 2,
    'INTAKE_REFUSED_RANGE': 3,
    'INTAKE_REFUSED_THREAD': 4,
    'INTAKE_REFUSED_BUSY': 5,
    'INTAKE_REFUSED_STARTS': 6,
    'INTAKE_REFUSED_IDLE': 7,
    'INTAKE_REFUSED_NONE_FREE': 8,
    'INTAKE_REFUSED_LINK': 9,
    'INTAKE_REFUSED_LIMIT': 14,
    'INTAKE_REFUSED_BUFFER': 15,
    'INTAKE_GOING': 100,
    'INTAKE_END': 101,
    'INTAKE_EMPTY': 102,
    'INTAKE_ITEM': 103,
    'INTAKE_DRAINED': 104,
    'INTAKE_ENTRIES': 0,
    'INTAKE_RECORDS': 1,
    'INTAKE_PRODUCERS': 2,
    'INTAKE_TAIL': 6,
    'INTAKE_HEAD': 9,
    'JUDGE_EXPLAINED': 0,
    'JUDGE_UNEXPLAINED': 1,
    'JUDGE_REFUSED_LENGTH': 10,
    'JUDGE_REFUSED_TABLE': 11,
    'JUDGE_REFUSED_FORM': 12,
    'JUDGE_REFUSED_FOLLOWS': 13,
    'JUDGE_REFUSED_ORDER': 16,
    'ORDER_YES': 0,
    'ORDER_NO': 1,
    'RECORDINGS_SAME_CALLS': 0,
    'RECORDINGS_OTHER_CALLS': 1,
    'RECORDINGS_KEEP': 0,
    'RECORDINGS_DO_NOT_KEEP': 1,
    'RECORDINGS_REFUSED_LENGTH': 10,
    'RECORDINGS_REFUSED_FORM': 12,
    'RECORDINGS_REFUSED_FOLLOWS': 13,
    'CENSUS_OK': 0,
    'CENSUS_REFUSED_ITEM': 19,
    'CENSUS_REFUSED_TABLE': 20,
    'CENSUS_REFUSED_OFFICE': 21,
    'CENSUS_REFUSED_BOARD': 22,
    'CENSUS_FREE': 0,
    'CENSUS_OCCUPIED': 1,
    'CENSUS_AWAITING_CLEANING': 2,
    'CENSUS_BEING_CLEANED': 3,
    'CENSUS_CLOSED': 4,
}


MACROS = {
    'INTAKE_VERSION': 7,
    'INTAKE_MOST_STEPS': 100_000_000,
    'INTAKE_MOST_WORDS': 12_826,
    'INTAKE_DRAIN_WORDS': 130,
    'INTAKE_MOST_DRAINED': 64,
    'INTAKE_MOST_BUFFER': 128,
    'JUDGE_MOST_EVENTS': 4_096,
    'CENSUS_WORDS': 536,
    'CENSUS_BEDS': 512,
    'CENSUS_STATES': 5,
    'CENSUS_OFFICES': 4,
    'CENSUS_TABLE_WORDS': 60,
    'CENSUS_VALUE(3, CENSUS_AWAITING_CLEANING)': 26,
    'CENSUS_VALUE(510 + 1, 2 + 2)': 4_092,
    'CENSUS_BED(4090 + 2)': 511,
    'CENSUS_STATE(4090 + 2)': 4,
}


def compiled():
    """c_interface.c with the archives."""
    library = shared([HERE / 'c_interface.c', *map(archive, HEADERS)], 'c_interface', '-O2', '-pthread')
    library.stack_used.restype = ctypes.c_size_t
    return library


class Header(unittest.TestCase):
    def compile(self, compiler, *flags):
        """A header that does not compile, or not without warnings."""
        with tempfile.TemporaryDirectory() as folder:
            source = pathlib.Path(folder) / 'header.c'
            numbers = NUMBERS | MACROS
            names = '\n'.join(f'static_assert({name} == {number}, "");' for name, number in numbers.items())
            headers = ''.join(f'#include "{header}"\n' for header in HEADERS.values())
            source.write_text(f'#include <assert.h>\n{headers}{names}\nint main(void) {{ return 0; }}\n')
            strict = ['-Wall', '-Wextra', '-Wpedantic', '-Wconversion', '-Werror']
            subprocess.run([compiler, *flags, *strict, '-c', str(source), '-o', str(source.with_suffix('.o'))], check=True)

    def test_names(self):
        """A name whose number is not the paper's; a header that C does not take as it is."""
        self.compile('gcc', '-std=c11')
        named = [re.findall(r'\b([A-Z_]+) = \d+', header.read_text(encoding='utf-8')) for header in HEADERS.values()]
        self.assertEqual(sorted(itertools.chain(*named)), sorted(NUMBERS))

    @unittest.skipUnless(shutil.which('g++'), 'no C++ compiler')
    def test_names_in_cpp(self):
        """A header that C++ does not take."""
        self.compile('g++', '-std=c++11', '-xc++')

    def test_declares_what_is_exported(self):
        """A function that a header declares and its archive lacks, or the other way round."""
        for name, header in HEADERS.items():
            symbols = subprocess.run(['nm', '-g', '--defined-only', archive(name)], capture_output=True, text=True, check=True).stdout
            declared = re.findall(r'^uint32_t (\w+)\(', header.read_text(encoding='utf-8'), re.M)
            self.assertEqual(sorted(declared), sorted(re.findall(r' T (\w+)', symbols)), name)

    def test_words(self):
        """A store's size that is not the paper's."""
        library = compiled()
        for sizes in itertools.product((2, 3, 63, 64), (2, 3, 63, 64), (1, 2, 15, 16)):
            self.assertEqual(library.words_of(*sizes), im.needed_words(*sizes))
        self.assertEqual(library.words_of(64, 64, 16), MACROS['INTAKE_MOST_WORDS'])

    def test_most_enqueue_steps(self):
        """A bound that is not document 02's, or that the explorations pass: they hold enqueues to less."""
        library = compiled()
        for N, P in itertools.product(range(2, 65), range(1, 17)):
            self.assertEqual(library.most_enqueue_steps(N, P), 5 * P + N + 6)
            for B in range(2, 65):
                self.assertLess(measures.most_enqueue_steps(B, N, P), library.most_enqueue_steps(N, P))
        self.assertEqual(library.most_enqueue_steps(64, 16), 150)

    def test_most_dequeue_steps(self):
        """A bound that is not the one that the explorations hold dequeues to, or that wraps at some sizes."""
        library = compiled()
        for B, N in itertools.product(range(2, 65), repeat=2):
            self.assertEqual(library.most_dequeue_steps(B, N), measures.most_dequeue_steps(B, N))
        self.assertEqual(library.most_dequeue_steps(64, 64), 8_675_745)

    def test_most_drain_steps(self):
        """A bound that is not the one that the explorations hold drains to, or that wraps at some sizes."""
        library = compiled()
        for B, N, limit in itertools.product((2, 3, 8, 63, 64), (2, 3, 8, 63, 64), range(1, 65)):
            self.assertEqual(library.most_drain_steps(B, N, limit), measures.most_drain_steps(B, N, limit))
        self.assertEqual(library.most_drain_steps(64, 64, 64), 8_942_109)


class Guards(unittest.TestCase):
    """`intake_has_room` and `intake_in_the_way` (docs/STEPS.md, "Room")."""

    @classmethod
    def setUpClass(cls):
        cls.library = compiled()

    def has_room(self, words):
        return bool(self.library.has_room((ctypes.c_uint32 * len(words))(*words)))

    def test_any_store(self):
        """A guard that counts other records than those that are linked, or another last place, that wraps, or that takes a producer
        for one in the way or not: on stores of runs, with few records and with many, and with some words drawn."""
        rng, rooms, ways = random.Random(33), collections.Counter(), collections.Counter()
        for seed in range(40):
            B, N, P = rng.randint(2, 5), rng.randint(2, 24), rng.randint(1, 5)
            host = dry_runs.Host((B, N, P), im.Intake, seed, room=lambda words: rng.random() < 0.7)
            for _ in range(300):
                host.turn()
                words = list(host.words)
                if rng.random() < 0.3:
                    words[im.TAIL] = rng.choice((0, 1, 2**31, 2**32 - 1, rng.randrange(200)))
                    record = words[5] + rng.randrange(N) * im.record_words(B)
                    words[record + im.PLACE], words[record + im.USE] = rng.choice((0, 1, 50, 500_002)), rng.randint(0, 3)
                if USE_LINKED in im.record_parts(words, im.USE):
                    room = dry_runs.has_room(words)
                    self.assertEqual(self.has_room(words), room)
                    rooms[room] += 1
                for t in range(1, P + 1):
                    way = words[16 + 8 * t] == 4 or dry_runs.holds_retired(words, t)
                    self.assertEqual(bool(self.library.in_the_way((ctypes.c_uint32 * len(words))(*words), t)), way)
                    ways[way] += 1
        self.assertGreater(min(*rooms.values(), *ways.values()), 500)

    def test_sizes_out_of_their_limits(self):
        """A guard that divides by zero, or that reads past a store that was never opened."""
        top = 2**32 - 1
        for k, sizes in ((0, (0, 1, 65, top)), (1, (65, top)), (2, (17, top))):
            for size in sizes:
                words = [2, 64, 1] + [0] * 13
                words[k] = size
                self.assertFalse(self.has_room(words))

    def test_least_records(self):
        """`INTAKE_LEAST_RECORDS` too small for a store that was just opened, or of which all items were taken."""
        for B, P in itertools.product((2, 3, 8, 63, 64), range(1, 17)):
            N = self.library.least_records(B, P)
            self.assertEqual(N, 2 * P + 3 + -(-P // B))
            run = Run(B, N, P)
            for k in range(4 * B):
                self.assertTrue(self.has_room(run.words), (B, N, P, k))
                dry_runs.turn(run, 1)

    def test_runs(self):
        """A host that keeps to both guards and in which a producer waits for good. The same hosts without either do."""
        claims, stuck = self.claims(has_room=True, clears=True)
        self.assertGreater(claims, 300)
        self.assertEqual(stuck, 0)
        self.assertGreater(self.claims(has_room=False, clears=True)[1], 0)
        self.assertGreater(self.claims(has_room=True, clears=False)[1], 0)

    def claims(self, has_room, clears):
        """How many steps of random runs with few records are in phase 4, and in how many runs a producer is still in the way when
        all that are have been stepped on; threads stop for long at random."""
        rng, library, claims, stuck = random.Random(34), load(), 0, 0
        for _ in range(100):
            P, B = rng.randint(2, 8), rng.randint(2, 3)
            N = self.library.least_records(B, P) + rng.randint(0, 12)
            engine = Engine(library, [0] * im.needed_words(B, N, P))
            self.assertEqual(engine.open((B, N, P, 5000)), 0)
            stopped = [0] * (P + 1)
            for _ in range(4000):
                t = rng.choice((0, *[rng.randint(0, P)] * 2))
                if stopped[t]:
                    stopped[t] -= 1
                    continue
                if rng.random() < 0.02:
                    stopped[t] = rng.randrange(300)
                if t == 0 and clears and self.clear_the_way(engine, P):
                    break
                if phase := engine.store[16 + 8 * t]:
                    claims += t > 0 and phase == 4
                    engine.call(('s', t))
                elif t == 0:
                    engine.call(('d',))
                elif not has_room or self.library.has_room(engine.store):
                    engine.call(('e', t, 7))
            stuck += self.clear_the_way(engine, P)
        return claims, stuck

    def clear_the_way(self, engine, P):
        """Step on whoever is in the way, for as long as a step is accepted. Whether somebody still is."""
        accepted = True
        while accepted:
            waiting = [t for t in range(1, P + 1) if self.library.in_the_way(engine.store, t)]
            accepted = [t for t in waiting if engine.call(('s', t)) != 8]
        return bool(waiting)


class Damage(unittest.TestCase):
    def test_a_circle(self):
        """The header's warning: on a store in range that the engine has not written a call may go round in a circle until its steps are
        counted out. Here record 0 is next to itself, all its entries are handled, and the cursor stands at its end."""
        B, N, P, M = 2, 2, 1, 9
        words = [0] * im.needed_words(B, N, P)
        im.open_store(words, B, N, P, M)
        first = 16 + 8 * (P + 1)
        words[6], words[7] = 5, 2
        words[16:19] = 3, 1, 2
        words[first + 1] = 1
        words[first + 4] = words[first + 7] = 2
        engine = Engine(load(), words)
        for k in range(1, 10001):
            self.assertEqual(engine.call(('s', 0)), NUMBERS['INTAKE_GOING'])
            self.assertEqual(list(engine.reply), [*Engine.MARK[:2], k, Engine.MARK[3]])
        engine.store[23] = 99_999_999
        self.assertEqual(engine.call(('s', 0)), NUMBERS['INTAKE_GOING'])
        self.assertEqual(engine.reply[2], 100_000_000)
        self.assertEqual(engine.call(('s', 0)), NUMBERS['INTAKE_REFUSED_LINK'])
        self.assertEqual(tuple(engine.reply), Engine.MARK)


class Stack(unittest.TestCase):
    """What docs/CLAIMS.md says of the stack, in KB."""

    @classmethod
    def setUpClass(cls):
        page = (ROOT / 'docs' / 'CLAIMS.md').read_text(encoding='utf-8')
        rows = re.findall(r'^\| (?:the program|a call of) `(\w+)`[^|]* \| ([\d,]+) KB \|(?:.* with ([\d,]+) KB it dies)?', page, re.M)
        cls.most = {name: 1024 * int(number.replace(',', '')) for name, number, _ in rows}
        cls.too_little = {name: 1024 * int(number.replace(',', '')) for name, _, number in rows if number}

    def test_calls(self):
        """A call from C that takes more stack than is said."""
        library = compiled()
        itself = library.stack_used(0)
        calls = ('intake_step', 'judge_history', 'order_check', 'recordings_compare', 'recordings_keep_precedence', 'census_table')
        for which, name in enumerate(calls, 1):
            used = library.stack_used(which)
            self.assertGreater(used, itself, name)
            self.assertLess(used - itself, self.most[name], name)

    def test_programs(self):
        """A program that takes more stack than is said, or far less."""
        calls = 'open 64 64 16 1000000\n' + ''.join(f'e {k} 7\n' for k in range(1, 17)) + 's 1\ns 2\n' * 900 + 'd\n'
        recording = ''.join(f'1 1 {k} {k}\n2 1 {k} {k}\n3 0 0 0\n4 0 {k} {k}\n' for k in range(1, 1025))
        for name, text, word in (('intake', calls, 'explained'), ('verdict', recording, 'explained'), ('drift', f'{recording}\n{recording}', 'kept')):
            self.assertIn(word, self.run_with(name, text, self.most[name]).stdout.split())
            self.assertLess(self.run_with(name, text, self.too_little[name]).returncode, 0)

    def run_with(self, name, text, stack):
        limit = lambda: resource.setrlimit(resource.RLIMIT_STACK, (stack, stack))
        return subprocess.run([program(name)], input=text, capture_output=True, text=True, preexec_fn=limit)


if __name__ == '__main__':
    unittest.main()
