"""The program `intake` against run files, the limits of its input, input and output that fail, and random inputs of
every class of program_scripts.py, which the independent model and judge answer. Needs crates/intake/out/intake, which
`rt ci` builds, and `rt run` in crates/intake."""

import collections
import concurrent.futures
import pathlib
import random
import re
import subprocess
import tempfile
import unittest

import archives
import intake_model as im
import judge_model as jm
import program_streams
from program_scripts import CLASSES, MOST_INPUT
from program_streams import lines_of

HERE = pathlib.Path(__file__).resolve().parent
PROGRAM = archives.program('intake')
STORE_WORDS = 12_826

NUMBER = rb'(0|[1-9][0-9]{0,9})'
OPEN = re.compile(rb'open ' + rb' '.join([NUMBER] * 4))
ENQUEUE = re.compile(rb'e ' + NUMBER + rb' ' + NUMBER)
STEP = re.compile(rb's ' + NUMBER)


def parse(line):
    """('open', B, N, P, M), ('e', thread, value), ('d',), ('s', thread), or None for a bad line."""
    if line == b'd':
        return ('d',)
    for name, form in (('open', OPEN), ('e', ENQUEUE), ('s', STEP)):
        found = form.fullmatch(line)
        if found:
            numbers = tuple(int(n) for n in found.groups())
            return (name,) + numbers if max(numbers) <= im.U32 else None
    return None


def line_of(reply):
    """The printed line of a reply. The number of steps comes last on `end`, `empty` and `item`; `ok CALL` and `going` have
    none."""
    shown = {'ok': reply[:2], 'going': reply[:1]}.get(reply[0], reply)
    return ' '.join(map(str, shown))


def expected(data):
    """What the papers say the program prints."""
    if len(data) > MOST_INPUT:
        return b'too long\n'
    words, history, out = [0] * STORE_WORDS, im.History(), []
    for line in lines_of(data):
        call = parse(line)
        if call is None:
            return b''.join(out) + b'bad line\n'
        if call[0] == 'open':
            reply = im.open_store(words, *call[1:])
            if reply[0] == 'ok':
                history = im.History()
        else:
            reply = im.do(words, call)
            history = im.told(history, call, reply, words, words)  # no drain: it does not go by the words
        out.append(line_of(reply).encode() + b'\n')
    verdict = jm.judge(jm.flatten(history), jm.MAX_EVENTS, jm.explained_by_mark)[0]
    return b''.join(out) + verdict.encode() + b'\n'


def printed(data):
    return subprocess.run([PROGRAM], input=data, capture_output=True, check=True).stdout


def runs_of(folder):
    """The run files of a folder by name: (input, output)."""
    names = {kind: {path.stem for path in folder.glob('*.' + kind)} for kind in ('stdin', 'stdout')}
    if not names['stdin']:
        raise FileNotFoundError(f'no run files in {folder}')
    if names['stdin'] != names['stdout']:
        raise FileNotFoundError(f'half a run in {folder}: {names["stdin"] ^ names["stdout"]}')
    return {name: tuple((folder / f'{name}.{kind}').read_bytes() for kind in names) for name in sorted(names['stdin'])}


# Every form of line that the program can print; tests/runs/README.md says why there are no others.
FORMS = {'ok', 'ok CALL', 'going', 'end', 'empty', 'item', 'bad line', 'too long', 'explained'}
FORMS |= {f'refused {number}' for number in (1, 3, 4, 5, 6, 7, 8)}


def form(line):
    word = line.split(' ')[0]
    if word == 'ok':
        return line if line == 'ok' else 'ok CALL'
    return word if word in ('end', 'empty', 'item') else line


def shown(data, output):
    """The forms of the printed lines, and whether more than one open was accepted."""
    forms = {form(line) for line in output.decode().splitlines()}
    replies = zip(lines_of(data), output.split(b'\n'))
    opens = sum(line.startswith(b'open') and reply == b'ok' for line, reply in replies)
    return forms | ({'second open'} if opens > 1 else set())


class Runs(unittest.TestCase):
    """Expected outputs written by hand from documents 01 and 02; tests/runs/README.md."""

    def test_run_files(self):
        """A line form, a refusal, a phase or a kind of bad line that is not as document 01 has it."""
        for name, (data, output) in runs_of(HERE / 'runs').items():
            with self.subTest(run=name):
                self.assertEqual(printed(data), output)
                self.assertEqual(expected(data), output, 'the model')

    def test_half_a_run(self):
        """A test of run files that passes without them."""
        with tempfile.TemporaryDirectory() as name:
            folder = pathlib.Path(name)
            self.assertRaises(FileNotFoundError, runs_of, folder)
            (folder / 'a.stdin').write_bytes(b'd\n')
            self.assertRaises(FileNotFoundError, runs_of, folder)
            (folder / 'a.stdout').write_bytes(b'refused 3\nexplained\n')
            self.assertEqual(runs_of(folder), {'a': (b'd\n', b'refused 3\nexplained\n')})
            (folder / 'b.stdout').write_bytes(b'')
            self.assertRaises(FileNotFoundError, runs_of, folder)

    def test_limits_of_the_input(self):
        """A limit that is off by one, or a part of longer input that is run."""
        most = [
            (b'd\n' * 4096, b'refused 3\n' * 4096 + b'explained\n'),
            (b'open 2 2 1 9\n' + b's 1\n' * 2044 + b's 1', b'ok\n' + b'refused 7\n' * 2045 + b'explained\n'),
            (b'open 2 2 1 9\n' + b'd\n' * 4089 + b'd', b'ok\nok\n' + b'refused 5\n' * 4089 + b'explained\n'),
            (b'd\n' * 4095 + b'dd', b'refused 3\n' * 4095 + b'bad line\n'),
            (b'x' * 8192, b'bad line\n'),
            (b's ' + b'9' * 8190, b'bad line\n'),
        ]
        for data, output in most:
            self.assertEqual(len(data), MOST_INPUT)
            self.assertEqual(printed(data), output)
            self.assertEqual(expected(data), output)
            for more in (b'\n', b'd', b'\0', b'd\n' * 100_000):
                self.assertEqual(printed(data + more), b'too long\n')


class Streams(program_streams.Streams, unittest.TestCase):
    """Input that cannot be read and output that cannot be written, by document 01's printed run."""

    program = PROGRAM
    data = b'open 2 2 1 9\nd\ns 0\ns 0\ne 1 7\ns 1\ns 1\ns 1\n'
    output = b'ok\nok\ngoing\nempty 2\nok 1\ngoing\ngoing\nend 4\nexplained\n'


class Differential(unittest.TestCase):
    """The program against the independent model."""

    def test_random_inputs(self):
        """Anything that the program prints otherwise than the model, on thousands of inputs of every class."""
        every = collections.Counter()
        for make, (count, least) in CLASSES.items():
            inputs = [make(random.Random(f'{make.__name__} {k}')) for k in range(count)]
            seen = collections.Counter()
            with self.subTest(inputs=make.__name__), concurrent.futures.ThreadPoolExecutor(2) as pool:
                for data, output in zip(inputs, pool.map(printed, inputs)):
                    self.assertEqual(output, expected(data), data)
                    seen.update(shown(data, output))
                self.assertGreaterEqual(seen, collections.Counter(least))
            every += seen
        self.assertGreaterEqual(sum(count for count, _ in CLASSES.values()), 5_000)
        self.assertEqual(set(every) - {'second open'}, FORMS)
        self.assertGreaterEqual(min(every.values()), 50, every)


if __name__ == '__main__':
    unittest.main()
