"""The picture of tools/draw_history.py: it draws what `verdict` says, on recordings of every kind of reply, and docs/order.svg is the one of
docs/order.txt. The lengths of the queue come from the independent model."""

import contextlib
import pathlib
import random
import subprocess
import sys
import tempfile
import unittest
import xml.etree.ElementTree as xml

import judge_library as jl
import judge_model as jm
from archives import ROOT
from histories import DEQ, EMPTY, SHAPES, done, enq, item, run_of_calls
from test_verdict import program, text_of

SCRIPT = ROOT / 'tools' / 'draw_history.py'
SVG = '{http://www.w3.org/2000/svg}'
MOST = 2**32 - 1


def run(text, *named, verdict=None):
    """What the script writes on a recording, on standard input or in a file."""
    command = [sys.executable, SCRIPT, '--verdict', verdict or jl.PROGRAM, *named]
    return subprocess.run(command, input=text, capture_output=True, text=True)


@contextlib.contextmanager
def saying(text):
    """A program that says this, whatever it is given."""
    with tempfile.TemporaryDirectory() as folder:
        program = pathlib.Path(folder) / 'verdict'
        program.write_text(f"#!/bin/sh\nprintf '%s\\n' '{text}'\n")
        program.chmod(0o755)
        yield program


class Drawn:
    """What is in a picture."""

    def __init__(self, svg):
        self.root = xml.fromstring(svg)
        self.width, self.height = map(float, self.root.get('viewBox').split()[2:])
        self.bars = sorted(self.of('g', 'call'), key=lambda bar: int(bar.get('data-number')))

    def of(self, tag, kind, within=None):
        """The elements of a class, in the whole picture or within one of them."""
        found = (self.root if within is None else within).iter(SVG + tag)
        return [element for element in found if kind in element.get('class', '').split()]

    def texts(self, kind, within=None):
        return [element.text for element in self.of('text', kind, within)]

    def places(self):
        """(place, starting number) of each call that has one, in their order."""
        return sorted((int(place), int(bar.get('data-number'))) for bar in self.bars for place in self.texts('place', bar))

    def rows(self):
        """The thread of each row by its height."""
        return {float(text.get('y')): text.text for text in self.of('text', 'thread')}

    def box(self, text):
        """Where a text is, letters at their widest: left, right, top, bottom."""
        kinds = set(text.get('class').split())
        size = 18 if 'title' in kinds else 11 if 'small' in kinds else 13
        wide, x, y = len(text.text) * size * 0.62, float(text.get('x')), float(text.get('y'))
        left = x if kinds & {'title', 'note', 'thread'} else x - wide / 2
        return left, left + wide, y - size * 0.8, y + 2


class Picture(unittest.TestCase):
    def drawn(self, history):
        made = run(text_of(history))
        self.assertEqual((made.returncode, made.stderr), (0, ''), history[:50])
        return Drawn(made.stdout)

    def hold(self, history):
        """The word, a bar for each call with its item, open to the right and grey where it should be, the places as the order says, the
        lengths as the model does."""
        drawn = self.drawn(history)
        word, *order = program(text_of(history)).splitlines()
        self.assertEqual(drawn.texts('title'), [word])
        calls = jm.calls_of(history)
        self.assertEqual([int(bar.get('data-number')) for bar in drawn.bars], list(range(1, len(calls) + 1)))
        self.assertEqual([drawn.texts('item', bar) for bar in drawn.bars], [[drawn_item(call)] for call in calls])
        self.assertEqual(['enqueue' in bar.get('class') for bar in drawn.bars], [call.kind == jm.ENQUEUE for call in calls])
        self.assertEqual([len(drawn.of('line', 'until', bar)) for bar in drawn.bars], [int(call.end == 0) for call in calls])
        numbers = [int(number) for number in order[0].split()[1:]] if order else []
        self.assertEqual(drawn.places(), list(enumerate(numbers, 1)))
        dropped = [bool(order) and number not in numbers for number in range(1, len(calls) + 1)]
        self.assertEqual(['dropped' in bar.get('class').split() for bar in drawn.bars], dropped)
        self.assertEqual(drawn.texts('length'), [str(length) for length in jm.queue_lengths(history, numbers)])
        self.hold_bars(drawn, history, calls)
        self.hold_steps(drawn, history, numbers)
        return drawn

    def hold_bars(self, drawn, history, calls):
        """Each bar stands in its thread's row, from the tick of its start to that of its end."""
        ticks = [float(tick.get('x')) for tick in drawn.of('text', 'tick')]
        self.assertEqual(len(ticks), len(history))
        self.assertEqual(ticks, sorted(set(ticks)))
        for call, bar in zip(calls, drawn.bars):
            rect = drawn.of('rect', 'bar', bar)[0]
            x, y, wide, high = (float(rect.get(name)) for name in ('x', 'y', 'width', 'height'))
            self.assertAlmostEqual(x, ticks[call.start - 1], 2)
            if call.end:
                self.assertAlmostEqual(x + wide, ticks[call.end - 1], 2)
            else:
                self.assertGreater(x + wide, ticks[-1])
            thread = history[call.start - 1][1]
            rows = [name for at, name in drawn.rows().items() if y < at < y + high]
            self.assertEqual(rows, [f'producer {thread}' if thread else 'consumer'])

    def hold_steps(self, drawn, history, numbers):
        """The steps are as high as the lengths, and stand over the places."""
        steps = drawn.of('path', 'steps')
        self.assertEqual(len(steps), bool(numbers))
        self.assertEqual(drawn.texts('step'), [str(place) for place in range(1, len(numbers) + 1)])
        if numbers:
            parts = steps[0].get('d').split()
            floor, heights = float(parts[2]), [float(y) for sign, y in zip(parts, parts[1:]) if sign == 'V']
            lengths = jm.queue_lengths(history, numbers)
            unit = max([(floor - y) / length for y, length in zip(heights, lengths) if length], default=1)
            for y, length in zip(heights, lengths, strict=True):
                self.assertAlmostEqual(floor - y, unit * length, delta=0.1)

    def test_run_with_overlapping_calls(self):
        """A picture of the README that shows something else than its recording, or a recording that lacks overlapping calls, an empty
        answer or an enqueue under way whose item was taken."""
        with open(ROOT / 'docs' / 'order.txt', encoding='utf-8') as file:
            history = [tuple(map(int, line.split())) for line in file]
        drawn = self.hold(history)
        self.assertEqual(drawn.texts('thread'), ['producer 1', 'producer 2', 'producer 3', 'consumer'])
        self.assertIn('empty', drawn.texts('item'))
        taken = {call.item for call in jm.calls_of(history) if call.kind == jm.DEQUEUE and call.item}
        under_way = [call for call in jm.calls_of(history) if not call.end]
        self.assertTrue(any(call.item in taken for call in under_way))
        enqueues = [call for call in jm.calls_of(history) if call.kind == jm.ENQUEUE]
        self.assertTrue(any(a.start < b.start < a.end for a in enqueues for b in enqueues))

    def test_picture_of_the_docs(self):
        """docs/order.svg that is not what the script makes of docs/order.txt."""
        made = run('', ROOT / 'docs' / 'order.txt')
        self.assertEqual(made.stdout, (ROOT / 'docs' / 'order.svg').read_text(encoding='utf-8'))

    def test_explained(self):
        """An empty recording, calls that are all left out, an order of one call."""
        for history in ([], [enq(1)], [enq(1), DEQ], [DEQ, EMPTY], [enq(MOST, 16, MOST), DEQ, item(MOST, MOST)]):
            self.hold(history)

    def test_random_recordings(self):
        """A call in a wrong place, row or colour, or a wrong length: random histories, explained and not."""
        rng, words = random.Random(41), set()
        for _ in range(40):
            drawn = self.hold(run_of_calls(rng, rng.randrange(1, 60), rng.choice([1, 3, 16]), rng.choice([0, 0.1]), 1))
            words |= set(drawn.texts('title'))
        self.assertEqual(words, {'explained', 'unexplained'})

    def test_shapes(self):
        """The same on a recording of each shape."""
        for shape in SHAPES:
            self.hold(shape(120))

    def test_other_orders(self):
        """A picture that lays the calls itself instead of as `verdict` says, or leaves out others than it does: every order of a history with
        calls under way."""
        history = [enq(1), DEQ, enq(2, 2), done(1)]
        for order in jm.orders(history):
            with saying(' '.join(['explained\norder', *map(str, order)])) as verdict:
                drawn = Drawn(run(text_of(history), verdict=verdict).stdout)
            self.assertEqual(drawn.places(), list(enumerate(order, 1)))
            self.assertEqual([int(bar.get('data-number')) for bar in drawn.of('g', 'dropped')], [k for k in (1, 3, 2) if k not in order])
            self.assertEqual(drawn.texts('length'), [str(length) for length in jm.queue_lengths(history, order)])

    def test_unexplained(self):
        """Places or lengths drawn where there is no order."""
        drawn = self.hold([enq(1), done(1), DEQ, EMPTY, enq(2)])
        self.assertEqual(drawn.texts('title'), ['unexplained'])
        self.assertEqual((drawn.places(), drawn.texts('length'), drawn.of('g', 'dropped')), ([], [], []))

    def test_refused(self):
        """A refused recording that is not drawn, or one that is drawn with an order; the event at which the calls stop."""
        for word, calls, stop, history in (
            ('refused 13', 2, 4, [enq(1), done(1), DEQ, DEQ, EMPTY]),
            ('refused 13', 1, 2, [enq(1), EMPTY]),
            ('refused 12', 0, 1, [(9, 9, 9, 9), enq(1)]),
            ('refused 12', 1, 2, [enq(1), (6, 0, 0, 0)]),
            ('refused 13', 2, 0, [enq(1), enq(1, 2)]),
            ('refused 10', 2_049, 0, [DEQ, EMPTY] * 2_048 + [DEQ]),
        ):
            drawn = self.drawn(history)
            self.assertEqual((drawn.texts('title'), len(drawn.bars), drawn.places()), ([word], calls, []))
            self.assertEqual(len(drawn.of('line', 'stop')), int(stop > 0))
            self.assertEqual(f'Event {stop} ' in drawn.texts('note')[0], stop > 0)

    def test_bad_lines(self):
        """A picture of what is no recording: a line of another form, too many lines, a program that gives no order."""
        for text, word in (('1 1 1 7\nx\n', 'bad line 2'), ('1 1 1 7\n' * 8_193, 'too long')):
            made = run(text)
            self.assertEqual((made.stdout, made.stderr), ('', f'draw_history: {word}\n'))
            self.assertEqual(made.returncode, 1)
        for said in ('explained', 'explained\nother 1', '', 'unreadable'):
            with saying(said) as verdict:
                made = run('1 1 1 7\n', verdict=verdict)
            self.assertEqual((made.stdout, made.returncode), ('', 1), said)

    def test_no_text_runs_into_another(self):
        """Texts that overlap each other or leave their bar or the picture: long numbers in short bars, many threads, many calls."""
        rng = random.Random(42)
        many = [(kind, thread, number * 10**8 if number else 0, value) for kind, thread, number, value in run_of_calls(rng, 40, 4, 0, 1)]
        widest = [enq(MOST, 1, MOST), DEQ, item(MOST, MOST), DEQ, EMPTY, enq(MOST - 1, 2, MOST)]
        for history in (many, widest, widest[:1], [], *(shape(64) for shape in SHAPES)):
            drawn = self.drawn(history)
            texts = list(drawn.root.iter(SVG + 'text'))
            for k, text in enumerate(texts):
                left, right, top, bottom = drawn.box(text)
                self.assertTrue(0 <= left and right <= drawn.width and 0 <= top and bottom <= drawn.height, text.text)
                for other in texts[k + 1 :]:
                    box = drawn.box(other)
                    self.assertFalse(left < box[1] and box[0] < right and top < box[3] and box[2] < bottom, (text.text, other.text))
            for bar in drawn.bars:
                rect, (left, right, *_) = drawn.of('rect', 'bar', bar)[0], drawn.box(drawn.of('text', 'item', bar)[0])
                self.assertTrue(float(rect.get('x')) <= left and right <= float(rect.get('x')) + float(rect.get('width')), history)


def drawn_item(call):
    """What a bar says: the item put or given, empty, or that nothing was answered yet."""
    if call.kind == jm.DEQUEUE and call.item is None:
        return 'empty' if call.end else '?'
    return '{}: {}'.format(*call.item)


if __name__ == '__main__':
    unittest.main()
