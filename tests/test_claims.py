"""docs/CLAIMS.md against the repository: each name is declared in the file that it is cited with, each file is there, each count is so, each
must-fail edit is named, and what the cited statements rest on is listed under "What must be believed". The other pages: each file is there, and
the requests of document 02 that have landed are those of docs/CHANGES.md.

A citation is a name, or several, and its file: `name` (`path`), `name`, `path` or `name` of `path`. A path without its beginning is taken
to stand in the crate, or the folder, of the path before it. A name without a file must be cited with one elsewhere on the page."""

import collections
import glob
import os
import re
import unittest

from antt_files import ROOT, declared, is_definition, rests_on, source

PAGES = ('README.md', 'docs/CLAIMS.md', 'docs/DECISIONS.md', 'docs/PROOF.md', 'docs/STEPS.md', 'docs/LAYOUT.md', 'docs/CENSUS.md', 'docs/CHANGES.md')
TOP = ('crates', 'tests', 'docs', 'include', 'host', 'tools')
BESIDE = re.compile(r',? (?:and |or |of |in |\()?')
# what is quoted and is no name: commands, what the tools and the programs print, words of the language, libraries
QUOTED = re.compile(
    r'(?:rt|wc|make|python3|gcc)(?: .*)?|\.ci/run|rattle-kit-.*|[\w-]+=\S+|requires|main|memset|io|libc|libc::\w+|[≡<]|length|take'
    r'|os::c::\w+|(?:bad line|too long|unreadable|explained|unexplained|refused|going|end|empty|item|ok)(?: \w+)*|order(?: \d+)+|same calls|other calls|precedence(?: not)? kept'
)
# computations of which theorems on the page say all that is asked, in definitions that are listed: `verdict`, `order_shows`, `is_order_exactly_when_shows`,
# `same_exactly`, `keeps_exactly`
SHOWN = frozenset({'explains', 'order_numbers', 'is_order', 'same_calls', 'keeps_precedence'})
BELIEVED, ASSUMED, REFUSED = '## What must be believed', '## What is assumed and not proved', '## Wrong programs that are refused'


def page(name='docs/CLAIMS.md'):
    return (ROOT / name).read_text(encoding='utf-8')


def expand(path):
    """The files that a path with {a,b} and * names, and the names that lead nowhere."""
    found = re.fullmatch(r'(.*)\{(.*)\}(.*)', path)
    names = [found[1] + name + found[3] for name in found[2].split(',')] if found else [path]
    return [file for name in names for file in (sorted(glob.glob(name, root_dir=ROOT)) or [name])]


def is_path(token):
    return not QUOTED.fullmatch(token) and ('/' in token or re.search(r'\.(?:antt|rt|edit|py|md|h|c)$', token) is not None)


def whole(path, before):
    """A path from the top; one without its beginning stands in the crate or the folder of the path before it."""
    if path.split('/')[0] in TOP or not before:
        return path
    return '/'.join([*before.split('/')[:2], path]) if '/' in path else os.path.join(os.path.dirname(before), path)


def units(text):
    """The rows of the tables and the paragraphs."""
    text = re.sub(r'^(\|.*)$', r'\n\1\n', re.sub(r'```.*?```', '', text, flags=re.S), flags=re.M)
    return [' '.join(unit.split()) for unit in re.split(r'\n\s*\n', text)]


def read(unit):
    """The (names, path) pairs of a row or paragraph, its paths, and the names that stand without one."""
    pairs, paths, alone, waiting, end, before = [], [], [], [], 0, ''
    for found in re.finditer(r'`([^`]*)`', unit):
        token = found[1]
        if not BESIDE.fullmatch(unit[end : found.start()]):
            alone, waiting = alone + waiting, []
        end = found.end()
        if is_path(token):
            before = whole(token, before)
            paths.append(before)
            pairs += [(waiting, before)] if waiting else []
            waiting = []
        elif not QUOTED.fullmatch(token):
            waiting = waiting + token.split()
    return pairs, paths, alone + waiting


def cited(text):
    """The (name, file) pairs of a page."""
    return [(name, file) for unit in units(text) for names, path in read(unit)[0] for name in names for file in expand(path)]


def bare_paths(text):
    """The paths of a page that stand without quotes."""
    return re.findall(rf'(?<![\w/`])(?:{"|".join(TOP)})/[\w./-]*\w', text)


def missing_files(text):
    """The paths of the page, quoted or not, that lead nowhere."""
    paths = [path for unit in units(text) for path in read(unit)[1]] + bare_paths(text)
    return sorted({file for path in paths for file in expand(path) if not (ROOT / file).exists()})


def wrong_names(text):
    """The names that their file does not declare, and those that are cited with no file on the whole page."""
    wrong = [f'{name} is not declared in {file}' for name, file in cited(text) if (ROOT / file).is_file() and name not in source(file).blocks]
    known = {name for name, file in cited(text)} | {path.name for path in (ROOT / 'crates').iterdir()}
    return wrong + [f'{name} is cited with no file' for unit in units(text) for name in read(unit)[2] if name not in known]


def beliefs(text):
    """Each row of the two tables of what must be believed: its (name, file) pairs, its whole files, its number of lines."""
    rows = re.findall(r'^\| [^|]* \| ([^|]*) \| (\d+) \|$', text.split(BELIEVED)[1].split(ASSUMED)[0], re.M)
    return [(cited(files), [] if cited(files) else [file for path in read(files)[1] for file in expand(path)], int(lines)) for files, lines in rows]


def wrong_counts(text):
    """The rows whose number of lines is another."""
    wrong = []
    for names, files, lines in beliefs(text):
        if any(not (ROOT / file).is_file() for file in files + [file for _, file in names]):
            continue
        blocks = {(file, declared(block)[0]): len(block) for name, file in names if (block := source(file).blocks.get(name))}
        count = sum(blocks.values()) + sum(len(source(file).text.splitlines()) for file in files)
        wrong += [f'{count} lines, not {lines}: {", ".join(files or [name for name, _ in names])}'] if count != lines else []
    return wrong


def unlisted(text):
    """The definitions that a statement cited on the page rests on and that no table of what must be believed has."""
    files = {file for _, found, _ in beliefs(text) for file in found}
    names = {pair for found, _, _ in beliefs(text) for pair in found}
    rests = collections.defaultdict(set)
    for name, file in cited(text):
        if (ROOT / file).is_file() and name in source(file).blocks and name not in SHOWN and file not in files:
            for other, definition in rests_on(file, name, SHOWN) | ({(file, name)} if is_definition(file, name) else set()):
                rests[definition, other].add(name)
    return [
        f'{definition} of {file}, on which {", ".join(sorted(rests[definition, file]))} rests, is not listed'
        for definition, file in sorted(rests)
        if file not in files and (definition, file) not in names
    ]


def wrong_edits(text):
    """The must-fail edits that the page leaves out, and those that it names and that are not there."""
    named = {path for unit in units(text.split(REFUSED)[1]) for path in read(unit)[1] if path.endswith('.edit')}
    return sorted(named ^ set(glob.glob('crates/*/must-fail/*.edit', root_dir=ROOT)))


def faults(text):
    return missing_files(text) + wrong_names(text) + wrong_counts(text) + unlisted(text) + wrong_edits(text)


class Claims(unittest.TestCase):
    maxDiff = None

    def test_claims(self):
        """A citation, a count or a list of CLAIMS that is not so."""
        self.assertEqual(faults(page()), [])
        self.assertGreater(len(cited(page())), 40)
        self.assertGreater(len(beliefs(page())), 10)

    def test_files_of_the_other_pages(self):
        """A page that names a file that is not there. Here a file of a crate may be named by its last parts alone."""
        for name in PAGES:
            text = page(name)
            paths = bare_paths(text) + [token for unit in units(text) for token in re.findall(r'`([^`]*\.\w+)`', unit) if is_path(token)]
            for file in (file for path in paths for file in expand(path)):
                self.assertTrue((ROOT / file).exists() or glob.glob(f'crates/**/{file}', root_dir=ROOT, recursive=True), f'{name}: {file}')


    def test_landed_requests(self):
        """A page whose list of the requests that have landed is not that of the sections of CHANGES."""
        sections = set(re.findall(r'^## (U\d+):', page('docs/CHANGES.md'), re.M))
        for name in ('docs/CLAIMS.md', 'docs/DECISIONS.md'):
            listed = re.search(r'document 02 that have landed:\s([^.]*)\.', page(name))
            self.assertEqual(set(re.findall(r'U\d+', listed[1])), sections, name)


class Amended(unittest.TestCase):
    """That the checks above can fail: each on a page that was made wrong in one place."""

    @classmethod
    def setUpClass(cls):
        cls.faults = '\n'.join(faults(page()))

    def assert_found(self, old, new, fault):
        """A page in which the first place of a pattern was amended has a fault that it did not have."""
        amended = re.sub(old, new, page(), count=1)
        self.assertNotEqual(amended, page())
        self.assertNotIn(fault, self.faults)
        self.assertIn(fault, '\n'.join(faults(amended)))

    def test_misspelt_files(self):
        self.assert_found('crates/text/specs/ReadBack', 'crates/text/specs/ReadBak', 'crates/text/specs/ReadBak.antt')
        self.assert_found('crates/text/specs/ReadBack', 'crate/text/specs/ReadBack', 'crate/text/specs/ReadBack.antt')
        self.assert_found('Sizes,Cell,', 'Sizes,Cel,', 'crates/rules/specs/Cel.antt')
        self.assert_found('tests/intake_model.py', 'tests/intake_modle.py', 'tests/intake_modle.py')
        self.assert_found(r'\Z', '\n| a row | `crates/rules/specs/Rule.antt`, `Rang.antt` |\n', 'crates/rules/specs/Rang.antt')
        self.assert_found(r'\Z', '\n| a row | `crates/rules/src/lib.rt`, `specs/Rang.antt` |\n', 'crates/rules/specs/Rang.antt')

    def test_misspelt_names(self):
        self.assert_found('`reads_back`', '`read-back`', 'read-back is not declared in crates/text/specs/ReadBack.antt')
        self.assert_found('`refusal`', '`refusals`', 'refusals is not declared in crates/admission/specs/Refusal.antt')
        self.assert_found('is `Linearizable`', 'is `Linearisable`', 'Linearisable is cited with no file')

    def test_moved_names(self):
        """A name beside the file of another row, where it is known or not."""
        self.assert_found(r'(`refusal` \(`)[^`]*', r'\1crates/text/specs/ReadBack.antt', 'refusal is not declared in crates/text/specs/ReadBack.antt')
        self.assert_found(r'(`explains` \(`)[^`]*', r'\1crates/criterion/specs/Criterion.antt', 'explains is not declared in')

    def test_wrong_counts(self):
        self.assert_found(r'(`crates/ordering/specs/[^`]*` \| )\d+', r'\g<1>1', 'lines, not 1: crates/ordering/specs/Demand.antt')
        self.assert_found(r'(?<=specs/Refusal.antt`\) \| )\d+', '1', 'lines, not 1: refusal')

    def test_unlisted_definitions(self):
        self.assert_found(r'\| refusals 2 and 3 as one number .*\n', '', 'refusal of crates/admission/specs/Refusal.antt, on which Admits, Goes, admit rests')

    def test_edits(self):
        """An edit that is left out, and one that is misspelt."""
        name = re.search(r', `(\w+)\.edit`', page())[1]
        self.assert_found(f', `{name}.edit`', '', f'{name}.edit')
        self.assert_found(f', `{name}.edit`', f', `{name}_.edit`', f'{name}_.edit')


if __name__ == '__main__':
    unittest.main()
