"""The program `drift`, against document 02, U10: where its text is parted, its reading, and what it prints of the comparison."""

import random
import re
import subprocess
import unittest

import archives
import comparison_model as cm
import judge_model as jm
import program_streams
import recordings
from histories import DEQ, EMPTY, SHAPES, done, enq, item, run_of_calls
from judge_model import flatten
from program_streams import lines_of

PROGRAM = archives.program('drift')
MOST_EVENTS_READ, MOST_NUMBER = 8_192, 2**32 - 1
LINE = re.compile(rb'(0|[1-9][0-9]*) (0|[1-9][0-9]*) (0|[1-9][0-9]*) (0|[1-9][0-9]*)')
LONG = '4294967295 4294967295 4294967295 4294967295\n'


def text_of(history):
    return ''.join('%d %d %d %d\n' % event for event in history)


def text_of_two(first, second):
    return text_of(first) + '\n' + text_of(second)


def program(text):
    """What the program prints on a text."""
    run = subprocess.run([PROGRAM], input=text.encode() if isinstance(text, str) else text, capture_output=True)
    return run.stdout.decode()


def words_of(lines, number):
    """The words of a recording's lines, whose first has this number; or what is printed where it is too long or a line is bad."""
    words = []
    for k, line in enumerate(lines):
        if k == MOST_EVENTS_READ:
            return 'too long\n'
        found = LINE.fullmatch(line)
        numbers = [int(n) for n in found.groups()] if found else [MOST_NUMBER + 1]
        if max(numbers) > MOST_NUMBER:
            return f'bad line {number + k}\n'
        words += numbers
    return words


def report(text):
    """What the program must print: the lines before the first empty one are read, then those after it, and compared if all are good."""
    lines = lines_of(text)
    empty = lines.index(b'') if b'' in lines else len(lines)
    first = words_of(lines[:empty], 1)
    if isinstance(first, str):
        return first
    if empty == len(lines):
        return f'bad line {empty + 1}\n'
    second = words_of(lines[empty + 1 :], empty + 2)
    return second if isinstance(second, str) else said(first, second)


def said(first, second):
    """How the program says what the model says of two recordings."""
    reply, (recording, begin) = cm.compare(first, second)
    if reply[0] == 'refused':
        return 'refused %d %d\n' % reply[1:]
    word = f'{reply} calls\n'
    if reply == 'same':
        word += 'precedence kept\n' if cm.keeps_precedence(jm.events_of(first), jm.events_of(second)) else 'precedence not kept\n'
    return word + text_of(jm.events_of((first if recording == 1 else second)[begin:]))


class Printing(unittest.TestCase):
    """A test of what the program prints."""

    def hold(self, text, output):
        """Every byte of it."""
        self.assertEqual(program(text), output, text[:200])

    def hold_to_model(self, text):
        """What the model says, and its first words, without a number."""
        text = text.encode() if isinstance(text, str) else text
        output = report(text)
        self.hold(text, output)
        return tuple(re.findall(r'^(?:[a-z]+ ?)+', output, re.M)[:2])


class Program(Printing):
    """The program on small recordings, on its limits and on lines that are none."""

    SEEN_LATER = [enq(1), done(1), DEQ, item(1)], [enq(1), DEQ, done(1), item(1)]

    RUNS = [
        ('same calls\nprecedence kept\n', [], []),
        ('same calls\nprecedence kept\n', [enq(1), done(1)], [enq(1), done(1)]),
        ('same calls\nprecedence kept\n2 1 1 7\n3 0 0 0\n4 0 1 7\n', *SEEN_LATER),
        ('same calls\nprecedence not kept\n3 0 0 0\n2 1 1 7\n4 0 1 7\n', *SEEN_LATER[::-1]),
        ('other calls\n1 1 1 7\n', [enq(1)], []),
        ('other calls\n1 1 1 7\n', [], [enq(1)]),
        ('other calls\n2 1 1 7\n', [enq(1)], [enq(1), done(1)]),
        ('other calls\n1 1 1 7\n', [enq(1)], [enq(1, value=8)]),
        ('other calls\n5 0 0 0\n', [DEQ, EMPTY], [DEQ, item(1)]),
        ('other calls\n1 2 4000000000 10\n', [enq(1)], [enq(1), enq(4_000_000_000, 2, 10)]),
        ('refused 1 12\n', [(6, 0, 0, 0)], [done(1)]),
        ('refused 1 13\n', [done(1)], [(6, 0, 0, 0)]),
        ('refused 2 12\n', [enq(1)], [(1, 17, 1, 7)]),
        ('refused 2 13\n', [enq(1)], [enq(1), enq(2)]),
        ('refused 1 10\n', [(9, 9, 9, 9)] * 4097, [done(1)]),
        ('refused 2 10\n', [], [(9, 9, 9, 9)] * 4097),
    ]

    def test_runs(self):
        """A reply that is not U10's, a refusal out of order or of the other recording, a line of precedence missing or too many, a rest of the
        other recording, or one that does not begin after the shared events."""
        for output, first, second in self.RUNS:
            self.hold(text_of_two(first, second), output)
            self.assertEqual(report(text_of_two(first, second).encode()), output, 'the model')

    def test_last_newline_may_be_missing(self):
        """A parser that wants the last newline, or drops a line without it."""
        self.hold('1 1 1 7\n\n1 1 1 7', 'same calls\nprecedence kept\n')
        self.hold('\n1 1 1 7', 'other calls\n1 1 1 7\n')

    def test_no_empty_line(self):
        """A program that takes what is missing for a recording of no event."""
        for text, number in (('', 1), ('1 1 1 7', 2), ('1 1 1 7\n', 2), ('1 1 1 7\n2 1 1 7\n3 0 0 0\n', 4), ('9 9 9 9\n' * 8_192, 8_193)):
            self.hold(text, f'bad line {number}\n')
            self.assertEqual(report(text.encode()), f'bad line {number}\n', 'the model')

    def test_other_empty_lines(self):
        """The recordings parted at another empty line than the first, or a second one passed over."""
        for text, number in (('\n\n', 2), ('\n\n\n', 2), ('3 0 0 0\n\n\n', 3), ('\n3 0 0 0\n\n', 3), ('3 0 0 0\n\n3 0 0 0\n\n3 0 0 0\n', 4)):
            self.hold(text, f'bad line {number}\n')
            self.assertEqual(report(text.encode()), f'bad line {number}\n', 'the model')

    def test_bad_lines(self):
        """A parser that takes anything but four plain numbers, in either recording, or counts the lines of the second anew."""
        bad = [
            ' ', 'x', '1', '1 1 1', '1 1 1 7 ', '1 1 1 7 7', ' 1 1 1 7', '1  1 1 7', '01 1 1 7', '-1 1 1 7', '1,1,1,7', '1\t1\t1\t7', '\r',
            '1 1 1 7\r', '1 1 1 4294967296', '1 1 1 99999999999', '1 1 1 7\x00',
        ]
        for line in bad:
            for before, number in (('', 1), ('3 0 0 0\n', 2), ('\n', 2), ('3 0 0 0\n\n', 3), ('\n3 0 0 0\n', 3), ('9 9 9 9\n\n' + '1 2 3 4\n' * 12, 15)):
                for after in ('', '\n', '\n3 0 0 0\n', '\n\nx\n'):
                    self.hold(before + line + after, f'bad line {number}\n')
                self.assertEqual(report((before + line).encode()), f'bad line {number}\n', 'the model')

    def test_first_before_second(self):
        """Errors of the second recording said before those of the first; a comparison before every line is read."""
        self.hold('3 0 0 0\nx\n\nx\n', 'bad line 2\n')
        self.hold('x\n\n' + '3 0 0 0\n' * 8_193, 'bad line 1\n')
        self.hold('3 0 0 0\n' * 8_193 + '\nx\n', 'too long\n')
        self.hold('9 9 9 9\n\nx\n', 'bad line 3\n')
        self.hold('9 9 9 9\n\n' + '3 0 0 0\n' * 8_193, 'too long\n')

    def test_limits(self):
        """A limit on events that is off by one, or one on both recordings together."""
        for line in ('1 1 1 7\n', LONG):
            self.hold(line * 8_192 + '\n' + line * 8_192, 'refused 1 10\n')
            self.hold(line * 8_192 + '\n' + line * 8_191 + line[:-1], 'refused 1 10\n')
            self.hold(line * 8_192 + '\n' + line * 8_191 + 'x\n', 'bad line 16385\n')
            self.hold(line * 8_191 + 'x\n\n' + line, 'bad line 8192\n')
            self.hold('\n' + line * 8_192, 'refused 2 10\n')
            for more in ('x', '\n', line, line * 20_000):
                self.hold(line * 8_192 + '\n' + line * 8_192 + more, 'too long\n')
                self.hold('\n' + line * 8_192 + more, 'too long\n')
            for more in ('x', line, line * 20_000):
                self.hold(line * 8_192 + more + '\n' + line, 'too long\n')

    def test_long_lines(self):
        """A line or an empty line that the program's buffer cuts off: the answer is still the text's."""
        for text in (
            '1' * 800_000, ' ' * 800_000 + '\n\n', '\n' + '1' * 800_000, LONG * 8_191 + '1' * 800_000 + '\n\n', LONG * 8_192 + '\n' + '1' * 800_000,
            LONG * 8_192 + '\n' + LONG * 8_191 + '1' * 400_000, LONG * 8_192 + '\n' + LONG * 8_191 + LONG[:-1] + ' ', LONG * 8_192 + '1' * 360_448 + '\n\n',
            LONG * 8_192 + '\n' + LONG * 8_192 + '1', LONG * 16_384 + '\n' + LONG, LONG * 8_191 + '\n' + LONG * 8_200, LONG * 20_000,
        ):
            self.hold_to_model(text)


class Comparison(Printing):
    """What is printed of the comparison."""

    def test_clocks(self):
        """The reply, the precedence and the rest of recordings of one run, and of runs that differ."""
        rng, seen = random.Random(71), set()
        for k in range(300):
            first = run_of_calls(rng, rng.randrange(50), rng.choice((1, 3, 16)))
            second = rng.choice((recordings.drifted, recordings.shuffled, lambda rng, run: recordings.overlapping_more(rng, run, 30)))(rng, first)
            if k % 3 == 1:
                second = second[: rng.randrange(len(second) + 1)]
            if k % 6 == 5 and second:
                second[rng.randrange(len(second))] = tuple(rng.choice([0, 1, 2, 3, 17, MOST_NUMBER]) for _ in range(4))
            pair = (first, second) if rng.random() < 0.5 else (second, first)
            seen.add(self.hold_to_model(text_of_two(*pair)))
        for words in (('same calls', 'precedence kept'), ('same calls', 'precedence not kept'), ('other calls',), ('refused ',)):
            self.assertIn(words, seen)

    def test_changed_bytes(self):
        """A line's number that is off, another bad line than the first, another empty line: texts with a few bytes changed."""
        rng, seen = random.Random(72), set()
        for _ in range(400):
            first = run_of_calls(rng, rng.randrange(1, 20))
            text = bytearray(text_of_two(first, recordings.drifted(rng, first)).encode())
            for _ in range(rng.randrange(1, 4)):
                at = rng.randrange(len(text))
                text[at : at + rng.randrange(2)] = rng.choice([b'', b' ', b'\n', b'\n\n', b'0', b'9', b'x'])
            self.hold_to_model(bytes(text))
            seen.add(report(text).split('\n')[0])
        for number in range(1, 26):
            self.assertIn(f'bad line {number}', seen)
        self.assertLessEqual({'same calls', 'other calls', 'refused 1 13', 'refused 2 13'}, seen)

    def test_longest_recordings(self):
        """A rest that is cut off, or a line of it: 4,096 events of each shape, against none, all, all but the last, the first, and the
        first two swapped; and 4,096 events of the longest numbers."""
        for shape in SHAPES:
            run = shape(jm.MAX_EVENTS)
            for second in ([], run, run[:-1], run[:1], [run[1], run[0], *run[2:]]):
                self.hold_to_model(text_of_two(run, second))
                self.hold_to_model(text_of_two(second, run))
        most = [(2 if k % 32 > 15 else 1, 1 + k % 16, MOST_NUMBER - k % 16 - k // 32 * 16, MOST_NUMBER) for k in range(jm.MAX_EVENTS)]
        self.assertEqual(self.hold_to_model(text_of_two(most, [])), ('other calls',))


class Streams(program_streams.Streams, unittest.TestCase):
    """Input that cannot be read and output that cannot be written."""

    program = PROGRAM
    data = b'1 1 1 7\n2 1 1 7\n\n1 1 1 7\n'
    output = b'other calls\n2 1 1 7\n'


if __name__ == '__main__':
    unittest.main()
