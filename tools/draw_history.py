#!/usr/bin/env python3
"""Draws a recording and what the judge says of it, as one SVG on standard output.

    python3 tools/draw_history.py [--verdict PROGRAM] [FILE]

Reads lines `KIND THREAD CALL VALUE`, as `verdict` does, from the file or from standard input, and runs `verdict` on them. Each call is a bar
from its start to its end over the events, a row for each thread, with the item that it put or gave as CALL: VALUE; a call under way is
open to the right. On `explained` the place of each call in the order stands over its bar, a call that the order leaves out is grey, and below is
the length of the queue after each call of the order. Of a recording that is refused the calls are drawn up to the first event that starts none
and ends none."""

import argparse
import pathlib
import subprocess
import sys
import xml.etree.ElementTree as xml
from typing import NamedTuple

VERDICT = pathlib.Path(__file__).resolve().parent.parent / 'crates' / 'verdict' / 'out' / 'verdict'
ENQUEUE, ENQUEUED, DEQUEUE, ITEM, EMPTY = range(1, 6)
# sizes in pixels
LETTER, SMALL_LETTER, LEFT, RIGHT, LEAST_WIDTH = 8.2, 7, 100, 20, 620
TOP, ROW, BAR, COLUMN, UNIT, HIGHEST = 96, 58, 26, 44, 18, 180
STYLE = """
text { font: 13px 'DejaVu Sans', Verdana, sans-serif; fill: #24292f; text-anchor: middle; }
.title { font-size: 18px; font-weight: bold; text-anchor: start; }
.note, .thread { text-anchor: start; }
.small { font-size: 11px; fill: #57606a; }
.page { fill: #ffffff; }
.grid { stroke: #d0d7de; stroke-width: 1; }
.bar { stroke-width: 1.5; }
.enqueue .bar { fill: #cfe3fb; stroke: #2f6fb7; }
.dequeue .bar { fill: #fde0bd; stroke: #b7651b; }
.dropped .bar { fill: #e6e8ea; stroke: #8c959f; }
.bar.open { stroke: none; }
.edge { fill: none; stroke-width: 1.5; }
.enqueue .edge { stroke: #2f6fb7; }
.dequeue .edge { stroke: #b7651b; }
.dropped .edge { stroke: #8c959f; }
.until { stroke-dasharray: 3 3; }
.place { font-weight: bold; }
.steps { fill: none; stroke: #3a7d44; stroke-width: 2; }
.length { font-weight: bold; }
.stop { stroke: #c62828; stroke-width: 1.5; stroke-dasharray: 5 3; }
@media (prefers-color-scheme: dark) {
text { fill: #e6edf3; } .small { fill: #9aa4ae; } .page { fill: #161b22; } .grid { stroke: #30363d; }
.enqueue .bar { fill: #1d3a5c; } .dequeue .bar { fill: #55371a; } .dropped .bar { fill: #31363c; } .steps { stroke: #6fbf7b; }
}
"""


class Call(NamedTuple):
    """A started call, events counted from 1: the end is 0 while it is under way, the item CALL: VALUE, or what stands for it."""

    kind: int
    thread: int
    start: int
    end: int
    item: str


def calls_of(events):
    """The calls in starting order, and the number of the first event that starts none and ends none; 0 if all do."""
    calls, running = [], {}
    for at, (kind, thread, number, value) in enumerate(events, 1):
        item = f'{number}: {value}'
        if kind in (ENQUEUE, DEQUEUE) and thread not in running:
            running[thread] = len(calls)
            calls.append(Call(kind, thread, at, 0, item if kind == ENQUEUE else '?'))
        elif thread in running and calls[running[thread]].kind == {ENQUEUED: ENQUEUE, ITEM: DEQUEUE, EMPTY: DEQUEUE}.get(kind):
            k = running.pop(thread)
            calls[k] = calls[k]._replace(end=at, item={ITEM: item, EMPTY: 'empty'}.get(kind, calls[k].item))
        else:
            return calls, at
    return calls, 0


def queue_lengths(calls, order):
    """How long the queue is after each call of the order."""
    lengths, length = [], 0
    for call in (calls[number - 1] for number in order):
        length += 1 if call.kind == ENQUEUE else -(length > 0)
        lengths.append(length)
    return lengths


def made(call):
    """What a call did to the queue, in short."""
    number = call.item.split(':')[0]
    return f'+{number}' if call.kind == ENQUEUE else number if number == 'empty' else f'\N{MINUS SIGN}{number}'


def plain(value):
    """A number of pixels, or a text, as an attribute has it."""
    return f'{value:.2f}'.rstrip('0').rstrip('.') if isinstance(value, float) else str(value)


class Picture:
    """The elements of an SVG. Whatever text they have is escaped by the library that writes them."""

    def __init__(self, columns, column):
        self.root = xml.Element('svg', xmlns='http://www.w3.org/2000/svg')
        self.add('style').text = STYLE
        self.page = self.add('rect', 'page', x=0, y=0, rx=8)
        self.column, self.right = column, max(LEFT + (columns + 0.5) * column, LEAST_WIDTH - RIGHT)

    def add(self, tag, kind='', into=None, **attributes):
        named = {name.replace('_', '-'): plain(value) for name, value in attributes.items()}
        return xml.SubElement(self.root if into is None else into, tag, **({'class': kind} if kind else {}), **named)

    def write(self, text, x, y, kind='', into=None):
        self.add('text', kind, into, x=float(x), y=float(y)).text = text

    def line(self, kind, x1, y1, x2, y2, into=None):
        self.add('line', kind, into, x1=float(x1), y1=float(y1), x2=float(x2), y2=float(y2))

    def event(self, at):
        """Where an event is, from left to right."""
        return LEFT + (at - 0.5) * self.column

    def text(self, height):
        """The whole, so high."""
        size = {'width': plain(float(self.right + RIGHT)), 'height': plain(float(height))}
        self.root.attrib.update(size, viewBox='0 0 {width} {height}'.format(**size))
        self.page.attrib.update(size)
        xml.indent(self.root, '')
        return xml.tostring(self.root, encoding='unicode') + '\n'


def draw_bar(picture, number, call, y, place):
    """A call's bar, its item and its place in the order: None where there is no order, 0 where the order leaves it out."""
    kind = 'enqueue' if call.kind == ENQUEUE else 'dequeue'
    group = picture.add('g', f'call {kind}' + ' dropped' * (place == 0), data_number=number, data_end=call.end)
    x, until = picture.event(call.start), picture.event(call.end) if call.end else picture.right
    picture.add('rect', 'bar' if call.end else 'bar open', group, x=float(x), y=float(y), width=float(until - x), height=BAR, rx=4 if call.end else 0)
    if not call.end:
        picture.add('path', 'edge', group, d=f'M {until:.2f} {y} H {x:.2f} V {y + BAR} H {until:.2f}')
        picture.line('edge until', until, y, until, y + BAR, group)
    picture.write(call.item, (x + until) / 2, y + BAR / 2 + 5, 'item', group)
    if place:
        wide = len(str(place)) * LETTER + 4
        picture.add('rect', 'page', group, x=float((x + until - wide) / 2), y=float(y - 18), width=float(wide), height=16)
        picture.write(str(place), (x + until) / 2, y - 5, 'place', group)


def draw_calls(picture, events, calls, places, stop):
    """The bars over the events; where they end, from top to bottom."""
    threads = sorted({call.thread for call in calls}, key=lambda thread: thread or 2**32)
    bottom = TOP + ROW * len(threads)
    for at in range(1, events + 1):
        picture.line('stop' if at == stop else 'grid', picture.event(at), TOP - 8, picture.event(at), bottom)
        picture.write(str(at), picture.event(at), bottom + 14, 'small tick')
    if events:
        picture.write('event', 16, bottom + 14, 'small note')
    for row, thread in enumerate(threads):
        y = TOP + ROW * row + 22
        picture.write(f'producer {thread}' if thread else 'consumer', 16, y + BAR / 2 + 5, 'thread')
        for number, call in enumerate(calls, 1):
            if call.thread == thread:
                draw_bar(picture, number, call, y, None if places is None else places.get(number, 0))
    return bottom + 14


def draw_queue(picture, calls, order, top):
    """The length of the queue after each call of the order, as steps; where they end."""
    lengths = queue_lengths(calls, order)
    highest = max(lengths)
    unit = min(UNIT, HIGHEST / max(highest, 1))
    floor, wide = top + 44 + unit * highest, (picture.right - LEFT) / len(order)
    picture.write('Length of the queue after each call of the order', 16, top + 12, 'note')
    path = f'M {LEFT} {floor:.2f}'
    for k, (number, length) in enumerate(zip(order, lengths)):
        x, middle = LEFT + k * wide, LEFT + (k + 0.5) * wide
        path += f' V {floor - unit * length:.2f} H {x + wide:.2f}'
        picture.write(str(length), middle, floor - unit * length - 5, 'length')
        picture.write(str(k + 1), middle, floor + 18, 'small step')
        picture.write(made(calls[number - 1]), middle, floor + 33, 'small made')
    picture.line('grid', LEFT, floor, picture.right, floor)
    picture.add('path', 'steps', d=path)
    picture.write('place', 16, floor + 18, 'small note')
    picture.write('call', 16, floor + 33, 'small note')
    return floor + 33


def column_for(events, calls, order):
    """How wide an event must be for every text to fit: those in the bars, and those under the steps."""
    spans = [(len(call.item) * LETTER + 8, (call.end or events + 1) - call.start) for call in calls]
    widest = max([0] + [len(made(calls[number - 1])) * SMALL_LETTER + 6 for number in order])
    return max([COLUMN, widest * len(order) / max(events, 1)] + [width / span for width, span in spans])


def draw(events, word, order):
    """The picture of a recording, with the judge's word and, if it is explained, the order."""
    calls, stop = calls_of(events)
    picture = Picture(len(events), column_for(len(events), calls, order or []))
    places = None if order is None else {number: place for place, number in enumerate(order, 1)}
    picture.write(word, 16, 32, 'title')
    said = f'{len(calls)} call' + 's' * (len(calls) != 1) + (f', {len(order)} in the order' if calls and order is not None else '')
    note = ' Over a bar: its place there. Grey: left out.' if order else f' Event {stop} starts none and ends none.' if stop else ''
    picture.write(f'{said}.{note}', 16, 54, 'note')
    if calls:
        picture.write('In a bar: CALL: VALUE, put or given; ? not yet answered. Open to the right: under way.', 16, 72, 'small note')
    bottom = draw_calls(picture, len(events), calls, places, stop) if events else 54
    return picture.text((draw_queue(picture, calls, order, bottom + 20) if order else bottom) + 18)


def judged(verdict, text):
    """The word of the judge on a recording, and the order of its calls if it is explained."""
    lines = subprocess.run([verdict], input=text, capture_output=True, check=True).stdout.decode().splitlines()
    word = lines[0] if lines else 'no answer'
    if word not in ('explained', 'unexplained') and not word.startswith('refused '):
        sys.exit(f'draw_history: {word}')
    if word == 'explained' and (len(lines) != 2 or lines[1].split()[:1] != ['order']):
        sys.exit(f'draw_history: {verdict} gives no order')
    return word, [int(number) for number in lines[1].split()[1:]] if word == 'explained' else None


def main():
    parser = argparse.ArgumentParser(description=__doc__.split('\n')[0])
    parser.add_argument('file', nargs='?', help='the recording; standard input if none is named')
    parser.add_argument('--verdict', default=VERDICT, help='the program that judges it (crates/verdict/out/verdict)')
    given = parser.parse_args()
    text = pathlib.Path(given.file).read_bytes() if given.file else sys.stdin.buffer.read()
    word, order = judged(given.verdict, text)
    sys.stdout.write(draw([tuple(map(int, line.split())) for line in text.splitlines()], word, order))


if __name__ == '__main__':
    main()
