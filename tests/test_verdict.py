"""The program `verdict`, against document 01 and the independent judge: its reading, its word and the order that it prints."""

import random
import re
import subprocess
import unittest

import judge_library as jl
import judge_model as jm
import program_streams
from histories import DEQ, EMPTY, SHAPES, done, enq, item, run_of_calls
from judge_model import flatten
from program_streams import lines_of

MOST_EVENTS_READ, MOST_NUMBER = 8_192, 2**32 - 1
ORDER = re.compile(r'\Aorder( [1-9][0-9]*)*\n\Z')
LINE = re.compile(rb'(0|[1-9][0-9]*) (0|[1-9][0-9]*) (0|[1-9][0-9]*) (0|[1-9][0-9]*)')


def text_of(history):
    return ''.join('%d %d %d %d\n' % event for event in history)


def program(text):
    """What the program prints on a text."""
    run = subprocess.run([jl.PROGRAM], input=text.encode() if isinstance(text, str) else text, capture_output=True)
    return run.stdout.decode()


def report(text):
    """The word that the program must print: its lines are read one by one, and judged if all of them are good."""
    words = []
    for number, line in enumerate(lines_of(text), 1):
        if number > MOST_EVENTS_READ:
            return 'too long'
        found = LINE.fullmatch(line)
        numbers = [int(n) for n in found.groups()] if found else [MOST_NUMBER + 1]
        if max(numbers) > MOST_NUMBER:
            return f'bad line {number}'
        words += numbers
    return said(jm.judge(words, jm.MAX_EVENTS, jm.explained_by_mark))


def said(reply):
    """How the program says a reply of the model."""
    return f'refused {reply[1]}' if reply[0] == 'refused' else reply[0]


class Printing(unittest.TestCase):
    """A test of what the program prints."""

    def hold(self, text, word):
        """The word and a newline, and nothing else; after `explained` a line of the starting numbers of a linearization, each after
        one space: a number too many or too few, a wrong one, another sign or space, or a line after another word."""
        text = text.encode() if isinstance(text, str) else text
        first, newline, second = program(text).partition('\n')
        self.assertEqual(first + newline, f'{word}\n', text[:200])
        if word != 'explained':
            self.assertEqual(second, '', text[:200])
            return
        self.assertRegex(second, ORDER, text[:200])
        history = [tuple(map(int, line.split())) for line in lines_of(text)]
        self.assertTrue(jm.is_order(history, list(map(int, second.split()[1:]))), (text[:200], second))


class Program(Printing):
    """The program on document 01's runs, on its limits and on lines that are none."""

    RUNS = [
        ('explained', []),
        ('unexplained', [enq(1), done(1), DEQ, EMPTY]),
        ('explained', [enq(1), DEQ, item(1)]),
        ('unexplained', [enq(1), done(1), enq(2), DEQ, item(2)]),
        ('unexplained', [enq(1), done(1), DEQ, item(2)]),
        ('unexplained', [enq(1), done(1), DEQ, item(1, 8)]),
        ('unexplained', [enq(1), done(1), DEQ, item(1), DEQ, item(1)]),
        ('unexplained', [DEQ, item(1), enq(1)]),
        ('explained', [DEQ, EMPTY, enq(1)]),
        ('refused 12', [(1, 0, 1, 7)]),
        ('refused 12', [(1, 17, 1, 7)]),
        ('refused 12', [(1, 1, 0, 7)]),
        ('refused 12', [(3, 0, 0, 1)]),
        ('refused 12', [(4, 1, 1, 7)]),
        ('refused 12', [(4, 0, 0, 7)]),
        ('refused 12', [(6, 0, 0, 0)]),
        ('refused 13', [enq(1), enq(2)]),
        ('refused 13', [enq(1), done(1), enq(1)]),
        ('refused 13', [done(1)]),
        ('refused 13', [enq(1), done(1, value=8)]),
        ('refused 13', [EMPTY]),
        ('refused 13', [DEQ, DEQ]),
        ('refused 13', [enq(1), enq(2), (9, 9, 9, 9)]),
        ('refused 12', [(9, 9, 9, 9), enq(1), enq(2)]),
    ]

    def test_runs(self):
        """A program whose word differs from the paper's, or a refusal out of order."""
        for word, history in self.RUNS:
            self.hold(text_of(history), word)

    def test_last_newline_may_be_missing(self):
        """A parser that wants the last newline, or drops a line without it."""
        self.hold('1 1 1 7\n3 0 0 0\n4 0 1 8', 'unexplained')
        self.hold('1 1 1 7', 'explained')

    def test_limits_of_events(self):
        """A limit on events that is off by one."""
        history = [event for k in range(1, 1025) for event in (enq(k), done(k), DEQ, item(k))]
        self.hold(text_of(history), 'explained')
        self.hold(text_of(history + [DEQ]), 'refused 10')
        self.hold(text_of([(2**32 - 1,) * 4] * 4097), 'refused 10')

    def test_largest_number(self):
        """A number that is cut to fewer bits, or one too many taken."""
        self.hold('1 16 4294967295 4294967295\n3 0 0 0\n4 0 4294967295 4294967295\n', 'explained')
        self.hold('1 16 4294967296 0\n', 'bad line 1')

    def test_bad_lines(self):
        """A parser that takes anything but four plain numbers."""
        bad = [
            '\n', ' \n', 'x\n', '1\n', '1 1\n', '1 1 1\n', '1 1 1 7 \n', '1 1 1 7 7\n', ' 1 1 1 7\n', '1  1 1 7\n',
            '01 1 1 7\n', '1 00 1 7\n', '1 1 1 07\n', '-1 1 1 7\n', '+1 1 1 7\n', '1 1 1 7.\n', '1,1,1,7\n', '1\t1\t1\t7\n',
            '1 1 1 7\r\n', '1 1 1 99999999999\n', '1 1 1 42949672950\n', '1 1 1', '1 1 1 ', 'open 2 2 1 9\n', '0x1 1 1 7\n',
            '1 1 1 7\x00\n', '/ 1 1 7\n', ': 1 1 7\n', '\udcff\n',
        ]
        for text in (text.encode(errors='surrogateescape') for text in bad):
            for before, number in ((b'', 1), (b'3 0 0 0\n', 2), (b'9 9 9 9\n' * 16, 17), (b'1 2 3 4\n' * 8_191, 8_192)):
                self.hold(before + text, f'bad line {number}')
                self.hold(before + text + b'3 0 0 0\n1', f'bad line {number}')
                self.assertEqual(report(before + text), f'bad line {number}', 'the model')

    def test_bad_line_hides_a_refusal(self):
        """A program that judges before it has read every line."""
        self.hold('9 9 9 9\nx\n', 'bad line 2')

    def test_first_bad_line(self):
        """A line's number that is off, another bad line than the first: texts with a few bytes changed, against the model."""
        rng, seen = random.Random(4), set()
        for _ in range(400):
            text = bytearray(text_of(run_of_calls(rng, rng.randrange(1, 40))).encode())
            for _ in range(rng.randrange(1, 4)):
                at = rng.randrange(len(text))
                text[at : at + rng.randrange(2)] = rng.choice([b'', b' ', b'\n', b'0', b'9', b'x'])
            self.hold(text, report(text))
            seen.add(report(text))
        for number in range(1, 31):
            self.assertIn(f'bad line {number}', seen)
        self.assertTrue({'explained', 'unexplained', 'refused 12', 'refused 13'} < seen, seen)

    def test_long_lines(self):
        """A line that the program's buffer cuts off: its number is still the text's."""
        long = '4294967295 4294967295 4294967295 4294967295\n'
        for text in ('1' * 400_000, ' ' * 400_000 + '\n', long * 8_191 + '1' * 400_000, long * 8_191 + long[:-1] + ' ' * 9, long * 8_192 + '1'):
            self.hold(text, report(text.encode()))

    def test_too_long(self):
        """A program that judges a part of its input: 8,192 events are read, short and long lines alike, and no more."""
        for line in ('1 1 1 7\n', '4294967295 4294967295 4294967295 4294967295\n'):
            self.hold(line * 8_192, 'refused 10')
            self.hold(line * 8_191 + line[:-1], 'refused 10')
            self.hold(line * 8_191 + 'x\n', 'bad line 8192')
            for more in ('x', line, line * 40_000):
                self.hold(line * 8_192 + more, 'too long')


class SecondLine(Printing):
    """The order after `explained`."""

    ONLY = [
        ('order', []),
        ('order 1', [DEQ, EMPTY]),
        ('order 1 2', [enq(1), done(1), DEQ, item(1)]),
        ('order 1 2', [enq(9), DEQ, item(9)]),
        ('order 2 1', [DEQ, enq(1), item(1)]),
        ('order 2 1', [enq(1), DEQ, EMPTY, done(1)]),
        ('order 2 3 1 4', [enq(1), DEQ, enq(2, 2), EMPTY, done(1), DEQ, item(2)]),
        ('order 1 3 4 2 5 6', [enq(8), done(8), enq(5), DEQ, item(8), enq(6, 2), done(6, 2), done(5), DEQ, item(6), DEQ, item(5)]),
    ]

    def test_the_only_order(self):
        """Recordings with one linearization and no other: a number counted from 0, by call numbers or by ends, an order that
        leaves out an enqueue under way whose item was taken, a line left out where no call is kept."""
        for line, history in self.ONLY:
            self.assertEqual(len(jm.orders(history)), 1, history)
            self.assertEqual(program(text_of(history)), f'explained\n{line}\n', history)

    def test_random_recordings(self):
        """The program's reading and printing, on a few hundred histories, some of an event that is none."""
        rng, seen = random.Random(3), set()
        for k in range(300):
            history = run_of_calls(rng, rng.randrange(60), wrong=rng.choice([0, 0.05]), reach=rng.choice([1, 2]))
            if k % 5 == 4 and history:
                at = rng.randrange(len(history))
                history[at] = tuple(rng.choice([0, 1, 2, 3, 17, 2**32 - 1]) for _ in range(4))
            word = said(jm.judge(flatten(history), jm.MAX_EVENTS, jm.explained_by_mark))
            self.hold(text_of(history), word)
            seen.add((word, len(history) > 20))
        self.assertLessEqual({('explained', True), ('unexplained', True), ('refused 12', True), ('refused 13', True)}, seen)

    def test_longest_recordings(self):
        """An order that is cut off, or a number of four digits that is: 4,096 events of each shape."""
        for shape in SHAPES:
            self.hold(text_of(shape(jm.MAX_EVENTS)), 'explained')


class Streams(program_streams.Streams, unittest.TestCase):
    """Input that cannot be read and output that cannot be written."""

    program = jl.PROGRAM
    data = b'1 1 1 7\n2 1 1 7\n3 0 0 0\n4 0 1 7\n'
    output = b'explained\norder 1 2\n'


if __name__ == '__main__':
    unittest.main()
