"""docs/CENSUS.md as written: its twenty rows, its two offices, its refusals and its program, tried on the library."""

import ctypes
import pathlib
import re
import subprocess
import tempfile
import unittest

from archives import ROOT, archive, shared

WORDS, BEDS, COUNTS = 536, 512, 532
PAGE = (ROOT / 'docs' / 'CENSUS.md').read_text(encoding='utf-8')
ROWS = [tuple(map(int, row)) for row in re.findall(r'^\| (\d) \| (\d) \| (\d) \|', PAGE, re.M)]
ROW = r'row `(\d \d \d)`'


def numbers(text):
    return tuple(map(int, text.split()))


def replaced(old, *new):
    """The page's rows with one of them replaced by others, or by none."""
    k = ROWS.index(numbers(old))
    return [*ROWS[:k], *map(numbers, new), *ROWS[k + 1 :]]


class Page(unittest.TestCase):
    @classmethod
    def setUpClass(cls):
        cls.library = shared([archive('census')], 'census')

    def setUp(self):
        """A board with the page's table, and its six events."""
        self.board = (ctypes.c_uint32 * WORDS)()
        self.library.census_open(self.board)
        self.assertEqual(self.counts(), (0, 0))
        self.assertEqual(self.read(ROWS), 0)
        self.six = re.findall(r'^\| (\d+) \| (\d+) \| (\d) [\w ]+ \| (yes|no) \| (yes|no) \|$', PAGE, re.M)
        for value, *_ in self.six:
            self.assertEqual(self.library.census_take(self.board, int(value)), 0)

    def read(self, rows):
        words = [word for row in rows for word in row]
        return self.library.census_table(self.board, (ctypes.c_uint32 * len(words))(*words), ctypes.c_size_t(len(words)))

    def counts(self):
        """What the site manager and the porters count."""
        reply = (ctypes.c_uint32 * 4)()
        found = []
        for office in (0, 1):
            self.assertEqual(self.library.census_count(self.board, office, reply), 0)
            found.append(reply[0])
        return tuple(found)

    def test_rows(self):
        """A table to copy that has not each office and state once, or a comment that is another row's."""
        self.assertEqual([row[:2] for row in ROWS], [(office, state) for office in range(4) for state in range(5)])
        states = dict(re.findall(r'^\| (\d) \| ([a-z ]+) \|$', PAGE, re.M))
        named = re.findall(r'^\| (\d) \| (\d) \| \d \| (.*), (.*) \|$', PAGE, re.M)
        self.assertEqual(len(named), 20)
        for office, state, who, what in named:
            self.assertEqual((who, what), (('site manager', 'porters', 'office 2', 'office 3')[int(office)], states[state]))

    def test_two_offices(self):
        """A bed, an event or a count of the two examples that is not so by the rows."""
        for value, bed, state, *yes in self.six:
            self.assertEqual(int(value), 8 * int(bed) + int(state))
            self.assertEqual([word == 'yes' for word in yes], [(office, int(state), 1) in ROWS for office in (0, 1)])
        self.assertEqual(len(self.six), 6)
        self.assertEqual(self.counts(), (int(re.search(r'site manager\*\* has (\d)', PAGE)[1]), int(re.search(r'porters\*\* have (\d)', PAGE)[1])))
        going = re.findall(rf'^\| (?:event (\d+)|{ROW} edited to `(\d \d \d)`, and the table read) \| (\d) \| (\d) \|', PAGE, re.M)
        self.assertEqual(len(going), 5)
        for event, old, new, *counts in going:
            self.assertEqual(self.library.census_take(self.board, int(event)) if event else self.read(replaced(old, new)), 0)
            self.assertEqual(self.counts(), tuple(map(int, counts)))

    def refusals(self, pattern):
        """The rows of the last table whose examples have this form."""
        return re.findall(rf'^\| (\d+) \| {pattern} \|', PAGE.split('## What is refused')[1], re.M)

    def assert_refused(self, number, call):
        before = list(self.board)
        self.assertEqual(call(), int(number))
        self.assertEqual(list(self.board), before)

    def test_refusals(self):
        """An example that is accepted, or refused with another number, or that changes a word."""
        events, tables = self.refusals(r'event (\d+)'), self.refusals(rf'{ROW} (left out|added once more|replaced by `(\d \d \d)`)')
        offices, words = self.refusals(r'the census of office (\d+)'), self.refusals(r'word (\d+) of the board is (\d+)(?:, and event (\d+))?')
        self.assertEqual([len(found) for found in (events, tables, offices, words)], [2, 6, 1, 4])
        for number, event in events:
            self.assert_refused(number, lambda event=event: self.library.census_take(self.board, int(event)))
        for number, old, what, new in tables:
            rows = replaced(old, *{'l': (), 'a': (old, old), 'r': (new,)}[what[0]])
            self.assert_refused(number, lambda rows=rows: self.read(rows))
        for number, office in offices:
            self.assert_refused(number, lambda office=office: self.library.census_count(self.board, int(office), (ctypes.c_uint32 * 4)()))
        for number, word, value, event in words:
            right, self.board[int(word)] = self.board[int(word)], int(value)
            self.assert_refused(number, lambda event=event: self.library.census_take(self.board, int(event or 4096)))
            self.board[int(word)] = right

    def test_program(self):
        """A program that does not compile as the page has it, prints something else than it says or takes a text that is no table."""
        compiling = re.search(r'`(gcc [^`]*)`', PAGE)[1].replace('gcc ', 'gcc -Werror ', 1)
        with tempfile.TemporaryDirectory() as folder:
            for name in ('include', 'target'):
                (pathlib.Path(folder) / name).symlink_to(ROOT / name)
            (pathlib.Path(folder) / 'example.c').write_text(re.search(r'```c\n(.*?)```', PAGE, re.S)[1], encoding='utf-8')
            subprocess.run(compiling, shell=True, cwd=folder, check=True)
            text = ''.join('%d %d %d\n' % row for row in ROWS)
            for rows, printed in ((text, 'site manager 2, porters 4\n'), (text + '0', 'refused 20\n'), (text[:-2], 'refused 20\n'), ('no table', 'refused 20\n')):
                done = subprocess.run([pathlib.Path(folder) / 'example'], input=rows, capture_output=True, text=True)
                self.assertEqual(done.stdout, printed)
                self.assertIn(f'`{printed.strip()}`', PAGE)
        self.assertIn(''.join('    %d %d %d\n' % row for row in ROWS[:5]), PAGE)


if __name__ == '__main__':
    unittest.main()
