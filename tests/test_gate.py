"""The gate .ci/run, with stand-ins for the tools: that it stops where one is missing, shows how far it is, and is red if a part fails."""

import pathlib
import shutil
import subprocess
import tempfile
import unittest

ROOT = pathlib.Path(__file__).resolve().parent.parent
# what rt ci writes of two crates and two edits
RT = r'''case $1 in
ci)
    echo 'library std: modules loaded=0'
    echo 'rt: one is kept: an earlier run on this machine proved the same files over the same libraries'
    echo 'rt: two proved'
    echo 'rt: two: its tests are proved'
    echo 'rt: must-fail one/wrong.edit: refused, as it must be: note: src/lib.rt:1:1: it is not proved that what the function ensures holds'
    echo "rt: must-fail two/wrong.edit: $EDIT"
    echo "$WORD"
    echo "$CI"
    case $CI in *' 0 failed') ;; *) exit 1 ;; esac
    ;;
esac
'''
PYTHON = '''case $1 in -c) exit "${OLD:-0}" ;; esac
case $2 in model) passed=1 failed=${MODEL:-0} ;; *) passed=2 failed=0 ;; esac
echo "tests: 1 of 1: test_one took 0 s, $passed passed, $failed failed"
echo "$passed passed, $failed failed"
exit "$failed"
'''
OK = 'rt: ok; handles allowed: none; must-fail edits: 2 refused; done in this run: 1 of the 3 proofs; the others are kept'
PASSING = {'EDIT': 'refused, as it must be', 'WORD': OK, 'CI': '4 passed, 0 failed'}


class Gate(unittest.TestCase):
    def setUp(self):
        """A repository of two crates and two edits with this gate, and a folder of stand-ins."""
        folder = tempfile.TemporaryDirectory()
        self.addCleanup(folder.cleanup)
        self.top, self.tools = pathlib.Path(folder.name) / 'repository', pathlib.Path(folder.name) / 'tools'
        for crate in ('one', 'two'):
            edits = self.top / 'crates' / crate / 'must-fail'
            edits.mkdir(parents=True)
            (edits / 'wrong.edit').touch()
        (self.top / 'crates.txt').write_text('# crates\none:\ntwo: one\n')
        shutil.copytree(ROOT / '.ci', self.top / '.ci')
        (self.top / 'tools').mkdir()
        self.tools.mkdir()
        for tool, text in (('rt', RT), ('python3', PYTHON), ('gcc', ''), ('make', 'exit "${HOST:-0}"')):
            self.write(self.tools / tool, text)
        self.write(self.top / 'tools' / 'archive', 'exit "${ARCHIVE:-0}"')

    def write(self, path, text):
        path.write_text('#!/bin/sh\n' + text)
        path.chmod(0o755)

    def gate(self, **settings):
        """The gate's exit status and lines; the stand-ins hide the tools of the machine."""
        for tool in ('bash', 'env', 'sh', 'mktemp', 'mkdir', 'rm', 'mv', 'grep', 'find', 'wc', 'tail', 'cut', 'nproc', 'nice', 'cat'):
            if not (self.tools / tool).exists():
                (self.tools / tool).symlink_to(shutil.which(tool))
        done = subprocess.run([self.top / '.ci' / 'run'], env={'PATH': str(self.tools), **PASSING, **settings}, capture_output=True, text=True)
        self.assertEqual(done.stderr, '')
        return done.returncode, done.stdout.splitlines()

    def test_passes(self):
        """A gate that counts wrongly, shows nothing on its way or loses what a part wrote."""
        status, lines = self.gate()
        self.assertEqual((status, lines[-1]), (0, '10 passed, 0 failed'))
        self.assertTrue(any(line.startswith('gate: crate 1 of 2: one is kept: ') for line in lines))
        self.assertIn('gate: crate 2 of 2: two proved', lines)
        self.assertTrue(any(line.startswith('gate: edit 1 of 2: one/wrong.edit: refused, as it must be: note: src/lib.rt:1:1: ') for line in lines))
        self.assertIn(f'gate: {OK}', lines)
        self.assertTrue(any(line.startswith('gate: proofs took ') for line in lines))
        self.assertIn('library std', (self.top / 'target' / 'gate' / 'proofs').read_text())

    def test_a_tool_is_missing(self):
        """A gate that starts its parts without one of its tools, or with an old Python."""
        for tool in ('rt', 'gcc', 'make', 'python3'):
            away = self.tools / (tool + '.away')
            (self.tools / tool).rename(away)
            self.assertEqual(self.gate(), (2, [f'gate: {tool} is not on the PATH', '0 passed, 1 failed']))
            away.rename(self.tools / tool)
        self.assertEqual(self.gate(OLD='1'), (2, ['gate: python3 is older than 3.11', '0 passed, 1 failed']))

    def test_a_part_fails(self):
        """A gate that is green although a part fails, with or without a tally of its own, or says not where to look."""
        status, lines = self.gate(HOST='1')
        self.assertEqual((status, lines[-1]), (1, '9 passed, 1 failed'))
        self.assertTrue(any('host FAILED' in line and 'target/gate/host' in line for line in lines))
        failed = 'rt: FAILED: two/wrong.edit'
        status, lines = self.gate(EDIT='NOT REFUSED: the crate is still proved with this edit', WORD=failed, CI='3 passed, 1 failed')
        self.assertEqual((status, lines[-1]), (1, '9 passed, 1 failed'))
        self.assertIn('gate: edit 2 of 2: two/wrong.edit: NOT REFUSED: the crate is still proved with this edit', lines)
        self.assertIn(f'gate: {failed}', lines)
        self.assertTrue((self.top / 'target' / 'gate' / 'proofs').exists())
        status, lines = self.gate(MODEL='1')
        self.assertEqual((status, lines[-1]), (1, '10 passed, 1 failed'))
        self.assertTrue(any('model FAILED' in line and 'target/gate/model' in line for line in lines))
        status, lines = self.gate(ARCHIVE='1')
        self.assertEqual((status, lines[-1]), (1, '8 passed, 2 failed'))
        self.assertTrue(any('judge FAILED' in line for line in lines))

    def test_an_edit_is_bad(self):
        """A gate that is green although an edit could not be tried, which rt ci passes."""
        bad = OK.replace('2 refused', '1 refused, 1 bad')
        status, lines = self.gate(EDIT='BAD EDIT: the text does not stand in src/lib.rt', WORD=bad, CI='3 passed, 0 failed')
        self.assertEqual((status, lines[-1]), (1, '6 passed, 1 failed'))
        self.assertIn('gate: edit 2 of 2: two/wrong.edit: BAD EDIT: the text does not stand in src/lib.rt', lines)
        self.assertTrue(any('proofs FAILED' in line for line in lines))


if __name__ == '__main__':
    unittest.main()
