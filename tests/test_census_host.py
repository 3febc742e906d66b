"""host/census.c on many seeds: that its lines are as the two tables have it, and that it does not pass over a wrong census."""

import pathlib
import re
import subprocess
import tempfile
import unittest

from archives import ROOT, archive

# what an item of each state does to the counts of the site manager and the porters, before and after the table is edited; none other is printed
CHANGES = (
    {'occupied': (1, 1), 'awaiting cleaning': (-1, 0), 'being cleaned': (0, -1)},
    {'occupied': (1, 1), 'awaiting cleaning': (-1, 0), 'free': (0, -1)},
)
LAST = r'40 events counted, not one bed out: each has the state of its last event; site manager (\d+), porters (\d+), as counted afresh'
# A census that is wrong in one place: which call, its parameters and arguments, and when it answers otherwise. Bed 1 has its last event, that it is
# occupied, in the run of this seed.
SEED, TAKE = 19, ('census_take', 'uint32_t *board, uint32_t value', 'board, value')
WRONG = {
    'an item lost': (*TAKE, 'value == 1 * 8 + 1 ? 0'),
    'an item refused': (*TAKE, 'value == 1 * 8 + 1 ? 19'),
    'an item not counted': (*TAKE, 'value == 1 * 8 + 1 ? (board[1] = 1, 0)'),
    'a table not read': ('census_table', 'uint32_t *board, const uint32_t *rows, size_t words', 'board, rows, words', 'rows[26] ? 0'),
    'another count': ('census_count', 'const uint32_t *board, uint32_t office, uint32_t *reply', 'board, office, reply', '(reply[0] = 9, office == 1) ? 0'),
}


class Host(unittest.TestCase):
    @classmethod
    def setUpClass(cls):
        folder = tempfile.TemporaryDirectory()
        cls.addClassCleanup(folder.cleanup)
        cls.folder = pathlib.Path(folder.name)
        cls.host = cls.build('host')

    @classmethod
    def build(cls, name, *more):
        program = cls.folder / name
        archives = [archive('engine'), archive('census')]
        subprocess.run(['gcc', '-std=c11', '-O2', f'-I{ROOT}/include', '-o', program, ROOT / 'host' / 'census.c', *more, *archives], check=True)
        return program

    def run_host(self, program, seed):
        return subprocess.run([program, str(seed)], capture_output=True, text=True)

    def test_lines(self):
        """A line that says something else of a count than the tables do, a count that no line tells, or a run that ends otherwise."""
        for seed in range(40):
            done = self.run_host(self.host, seed)
            self.assertEqual((done.returncode, done.stderr), (0, ''), seed)
            lines, counts, tables = done.stdout.splitlines(), (0, 0), 0
            self.assertEqual(lines[0].split(), ['call', 'bed', 'state', 'site', 'manager', 'porters'])
            for line in lines[1:-1]:
                if line.startswith('an edited table is read'):
                    tables += 1
                elif item := re.fullmatch(r' *\d+ +\d (.*\w) +(\d+) +(\d+)', line):
                    change = CHANGES[tables][item[1].strip()]
                    counts = tuple(count + by for count, by in zip(counts, change))
                    self.assertEqual((int(item[2]), int(item[3])), counts, (seed, line))
                else:
                    afresh = tuple(map(int, re.fullmatch(r' +counted afresh +(\d+) +(\d+)', line).groups()))
                    self.assertEqual((tables, afresh[0]), (1, counts[0]), (seed, line))
                    counts = afresh
            self.assertEqual(tuple(map(int, re.fullmatch(LAST, lines[-1]).groups())), counts, seed)

    def test_wrong_census(self):
        """A host that ends well although an item was lost or refused, or a bed or a count is wrong."""
        for what, (name, parameters, arguments, wrongly) in WRONG.items():
            source = self.folder / 'wrong.c'
            source.write_text('#include <stddef.h>\n#include <stdint.h>\n'
                              f'uint32_t __real_{name}({parameters});\nuint32_t __wrap_{name}({parameters});\n'
                              f'uint32_t __wrap_{name}({parameters}) {{ return {wrongly} : __real_{name}({arguments}); }}\n')
            done = self.run_host(self.build('wrong', source, f'-Wl,--wrap={name}'), SEED)
            self.assertEqual(done.returncode, 1, what)
            self.assertTrue(done.stderr.startswith('census: '), what)


if __name__ == '__main__':
    unittest.main()
