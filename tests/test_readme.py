"""The README's commands and its C example, as written."""

import os
import re
import subprocess
import tempfile
import unittest

from archives import ROOT, archive, program

CENSUS = 'target/host/census 19'
TRY = '(cd crates/intake && rt try < stdin)'
INTAKE, DRIFT = '(cd crates/intake && rt run < stdin)', '(cd crates/drift && rt run < stdin)'
VERDICT = r"printf '1 1 1 7\n2 1 1 7\n3 0 0 0\n4 0 1 7\n' | (cd crates/verdict && rt run)"
GATE = '.ci/run'
# what the README says that each command prints at last
LAST = {
    TRY: 'explained',
    'make -C host': "8000 items received, each producer's in its order",
    INTAKE: 'explained',
    DRIFT: '4 0 1 7',
    CENSUS: '40 events counted, not one bed out',
    './example': 'call 1, value 700',
    VERDICT: 'order 1 2',
}


def readme():
    with open(os.path.join(ROOT, 'README.md'), encoding='utf-8') as file:
        return file.read()


def commands():
    text = re.sub(r'```.*?```', '', readme(), flags=re.S)
    return re.findall(r'^    ((?:make |rt |gcc |target/|printf |\(cd |\./).*|\.ci/run)$', text, re.M)


def as_run(command):
    """The command, with the program that stands in the crate's out/ in the place of `rt run`, which proves the crates below once more before it runs that."""
    name = re.search(r'cd crates/(\w+) && rt run', command)
    return command.replace('rt run', f'out/{name[1]}') if name and program(name[1]).exists() else command


class Readme(unittest.TestCase):
    def run_command(self, command, folder=ROOT):
        """What a command prints, without the lines of make about folders."""
        done = subprocess.run(command, shell=True, cwd=folder, capture_output=True, text=True)
        self.assertEqual(done.returncode, 0, command + '\n' + done.stdout[-2000:] + done.stderr[-2000:])
        return [line for line in done.stdout.splitlines() if not re.match(r'make\b.*directory', line)]

    def test_c_example(self):
        """An example that does not compile without warnings as the README has it, or prints something else than it says."""
        archive('engine')
        with tempfile.TemporaryDirectory() as folder:
            for name in ('include', 'target'):
                os.symlink(ROOT / name, os.path.join(folder, name))
            with open(os.path.join(folder, 'example.c'), 'w', encoding='utf-8') as file:
                file.write(re.search(r'```c\n(.*?)```', readme(), re.S).group(1))
            compiling, running = (command for command in commands() if 'example' in command)
            self.run_command(compiling.replace('gcc ', 'gcc -Werror ', 1), folder)
            self.assertEqual(self.run_command(running, folder), ['call 1', 'call 1, value 700, 3 steps'])
        self.assertIn('prints `call 1` and `call 1, value 700, 3 steps`.', readme())

    def test_commands(self):
        """A command of the README that fails as it is written, or ends with something else than the README says. `.ci/run` is the gate
        itself, which runs this test."""
        printed = {command: self.run_command(as_run(command)) for command in commands() if command != GATE and 'example' not in command}
        self.assertEqual(set(printed) | {'./example', GATE}, set(LAST) | {GATE})
        for command, lines in printed.items():
            self.assertTrue(lines[-1].startswith(LAST[command]), f'{command}: {lines[-1]}')
        shown = readme().split(f'{INTAKE}\n\n')[1].split('\n\n')[0].splitlines()
        self.assertEqual(printed[INTAKE], [line[21:33].strip() for line in shown])
        self.assertEqual(printed[TRY], printed[INTAKE])
        with open(os.path.join(ROOT, 'crates', 'intake', 'stdin'), encoding='utf-8') as file:
            self.assertEqual(file.read().splitlines(), [line[4:21].strip() for line in shown[:-1]])
        shown = readme().split(f'{DRIFT}\n\n')[1].split('\n\n')[0].splitlines()[1:]
        self.assertEqual(printed[DRIFT], [line[28:47].strip() for line in shown])
        with open(os.path.join(ROOT, 'crates', 'drift', 'stdin'), encoding='utf-8') as file:
            for column, recording in zip((4, 16), file.read().split('\n\n'), strict=True):
                self.assertEqual(recording.splitlines(), [line[column : column + 12].strip() for line in shown[:-1]])
        shown = readme().split(f'{CENSUS}\n\n')[1].split('\n\n')[0].splitlines()
        self.assertEqual([f'    {line}' for line in printed[CENSUS]], shown)
        self.assertIn('\n'.join([f'../{CENSUS}', *printed[CENSUS]]), '\n'.join(printed['make -C host']))

    def test_kinds_and_refusals(self):
        """What the README says of the recordings that `verdict` refuses, tried."""
        many = '3 0 0 0\n5 0 0 0\n' * 2048
        for text, word in (
            (many, 'explained'),
            (many + '3 0 0 0\n', 'refused 10'),
            ('6 0 0 0\n', 'refused 12'),
            ('3 0 1 0\n', 'refused 12'),
            ('1 0 1 7\n', 'refused 12'),
            ('3 1 0 0\n', 'refused 12'),
            ('1 1 1 7\n1 1 2 7\n', 'refused 13'),
            ('2 1 1 7\n', 'refused 13'),
            ('1 1 1 7\n1 2 1 7\n', 'refused 13'),
        ):
            done = subprocess.run([program('verdict')], input=text, capture_output=True, text=True)
            self.assertEqual(done.stdout.split('\n')[0], word, text[:40])


if __name__ == '__main__':
    unittest.main()
